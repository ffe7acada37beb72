{ One channel, used by all, one after the other.
  Here is no baton, so it is a race. Let the runners give it to each other. }
program relay(input, output);
const n = 4;
type
  chan = *(integer);
  net = array [1..n] of chan;
  row = array [1..n] of integer;
var log: chan; batons: net; laps: row; i: integer;

procedure runner(k, laps: integer);
var i: integer;
begin
  for i := 1 to laps do send(log, 10 * k + i);
  if k = n then send(log, 0)
end;

procedure writer;
var x: integer;
begin
  receive(log, x);
  while x <> 0 do
    begin
      write(x: 4);
      receive(log, x)
    end;
  writeln
end;

begin
  open(log);
  for i := 1 to n do
    begin
      read(laps[i]);
      open(batons[i])
    end;
  parallel
    writer
  |
    forall k := 1 to n do runner(k, laps[k])
  end
end.
