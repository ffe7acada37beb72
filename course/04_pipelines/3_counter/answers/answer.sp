{ A counter made of processes.
  Each node has one binary digit. For each pulse it changes its digit, and sends a
  pulse on when it goes from 1 to 0. At the end each node sends its digit to the
  sink. The last node has nobody to send pulses to. }
program counter(input, output);
const n = 8;
type
  chan = *(boolean);
  net = array [1..n] of chan;
  digit = *(integer);
  digits = array [1..n] of digit;
var pulses: net; results: digits; count, i: integer;

procedure source(right: chan);
var i: integer;
begin
  for i := 1 to count do send(right, true);
  send(right, false)
end;

procedure node(k: integer; left: chan; result: digit);
var value: integer; pulse: boolean;
begin
  value := 0;
  receive(left, pulse);
  while pulse do
    begin
      value := 1 - value;
      if (value = 0) and (k < n) then send(pulses[k mod n + 1], true);
      receive(left, pulse)
    end;
  if k < n then send(pulses[k mod n + 1], false);
  send(result, value)
end;

procedure sink;
var i, value: integer;
begin
  for i := n downto 1 do
    begin
      receive(results[i], value);
      write(value: 1)
    end;
  writeln
end;

begin
  read(count);
  for i := 1 to n do open(pulses[i], results[i]);
  parallel
    source(pulses[1])
  |
    forall k := 1 to n do node(k, pulses[k], results[k])
  |
    sink
  end
end.
