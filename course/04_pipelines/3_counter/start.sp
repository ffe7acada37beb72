{ A counter made of processes.
  These nodes change their digits, but send no pulse on. So only the first one
  counts. }
program counter(input, output);
const n = 8;
type
  chan = *(boolean);
  net = array [1..n] of chan;
  digit = *(integer);
  digits = array [1..n] of digit;
var pulses: net; results: digits; count, i: integer;

procedure source(right: chan);
var i: integer;
begin
  for i := 1 to count do send(right, true);
  send(right, false)
end;

procedure node(k: integer; left: chan; result: digit);
var value: integer; pulse: boolean;
begin
  value := 0;
  receive(left, pulse);
  while pulse do
    begin
      value := 1 - value;
      receive(left, pulse)
    end;
  if k < n then send(pulses[k mod n + 1], false);
  send(result, value)
end;

procedure sink;
var i, value: integer;
begin
  for i := n downto 1 do
    begin
      receive(results[i], value);
      write(value: 1)
    end;
  writeln
end;

begin
  read(count);
  for i := 1 to n do open(pulses[i], results[i]);
  parallel
    source(pulses[1])
  |
    forall k := 1 to n do node(k, pulses[k], results[k])
  |
    sink
  end
end.
