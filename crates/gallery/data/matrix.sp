{ Many processes read what none of them writes.
  Each element of the product is computed by a process of its own. All of them
  read the matrices a and b, which nobody changes meanwhile. None may assign
  an element of the product (rule I2), so each sends its result on a channel of
  its own, and one process puts them all in place. }
program matrix;
const n = 3;
type
  chan = *(integer);
  vector = array [1..n] of integer;
  table = array [1..n] of vector;
  chans = array [1..n] of chan;
  net = array [1..n] of chans;
var a, b, product: table; c: net; i, j: integer;

procedure element(row, column: integer; result: chan);
var k, sum: integer;
begin
  sum := 0;
  for k := 1 to n do sum := sum + a[row, k] * b[k, column];
  send(result, sum)
end;

begin
  for i := 1 to n do
    for j := 1 to n do
      begin
        a[i, j] := i + j;
        b[i, j] := i * j;
        open(c[i, j])
      end;
  parallel
    forall row := 1 to n do
      forall column := 1 to n do
        element(row, column, c[row, column])
  |
    for i := 1 to n do
      for j := 1 to n do
        receive(c[i, j], product[i, j])
  end;
  for i := 1 to n do
    begin
      for j := 1 to n do write(product[i, j]: 5);
      writeln
    end
end.
