{ A polynomial in a pipeline.
  The value of 3x^3 + 0x^2 - 2x + 5 is ((3x + 0)x - 2)x + 5: each step multiplies by x
  and adds a coefficient. Each node has one coefficient and does one step. A message
  has x and the value up to there, and all nodes work at the same time. }
program horner(input, output);
const most = 10;
type
  message = record x, value: integer; is_last: boolean end;
  chan = *(message);
  net = array [0..most] of chan;
  row = array [1..most] of integer;
var c: net; coefficients: row; n, count, i: integer;

procedure source(right: chan);
var m: message; i: integer;
begin
  m.value := 0;
  m.is_last := false;
  for i := 1 to count do
    begin
      read(m.x);
      send(right, m)
    end;
  m.is_last := true;
  send(right, m)
end;

procedure node(coefficient: integer; left, right: chan);
var m: message;
begin
  receive(left, m);
  while not m.is_last do
    begin
      m.value := m.value * m.x + coefficient;
      send(right, m);
      receive(left, m)
    end;
  send(right, m)
end;

procedure sink(left: chan);
var m: message;
begin
  receive(left, m);
  while not m.is_last do
    begin
      writeln(m.x: 4, m.value: 8);
      receive(left, m)
    end
end;

begin
  read(n);
  for i := 1 to n do read(coefficients[i]);
  read(count);
  for i := 0 to n do open(c[i]);
  parallel
    source(c[0])
  |
    forall k := 1 to n do node(coefficients[k], c[k - 1], c[k])
  |
    sink(c[n])
  end
end.
