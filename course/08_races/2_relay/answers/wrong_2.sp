{ Mistake: runner 1 waits for the baton too, and nobody has it (deadlock). }
program relay(input, output);
const n = 4;
type
  chan = *(integer);
  net = array [1..n] of chan;
  row = array [1..n] of integer;
var log: chan; batons: net; laps: row; i: integer;

procedure runner(k, laps: integer);
var i, baton: integer;
begin
  receive(batons[k], baton);
  for i := 1 to laps do send(log, 10 * k + i);
  if k < n then send(batons[k mod n + 1], 0) else send(log, 0)
end;

procedure writer;
var x: integer;
begin
  receive(log, x);
  while x <> 0 do
    begin
      write(x: 4);
      receive(log, x)
    end;
  writeln
end;

begin
  open(log);
  for i := 1 to n do
    begin
      read(laps[i]);
      open(batons[i])
    end;
  parallel
    writer
  |
    forall k := 1 to n do runner(k, laps[k])
  end
end.
