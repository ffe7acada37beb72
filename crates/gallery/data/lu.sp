{ A parallel LU decomposition in fractions: a pipeline of columns.
  A matrix is split into L, with ones on its diagonal and zeros above it, and U,
  with zeros below it, so that L times U is the matrix. Each column is a process.
  It takes the factors of the columns to its left, one after another, passes
  them on at once and subtracts; then it makes factors of its own. So the column
  on the right works on the first factors while others still make theirs.
  Numbers are fractions, which lose nothing, and an assume says where the matrix
  has no such decomposition without an exchange of rows. }
program lu(input, output);
const n = 4;
type
  fraction = record above, below: integer end;
  column = array [1..n] of fraction;
  matrix = array [1..n] of column;
  chan = *(column);
  net = array [1..n] of chan;
var
  a, upper, lower: matrix;
  c, ups, lows: net;
  i, j: integer;

function gcd(a, b: integer): integer;
begin
  if b = 0 then gcd := a
  else gcd := gcd(b, a mod b)
end;

{ x becomes above/below, in lowest terms. }
procedure put(var x: fraction; above, below: integer);
var common: integer;
begin
  assume below <> 0;
  common := gcd(abs(above), abs(below));
  if below < 0 then common := -common;
  x.above := above div common;
  x.below := below div common
end;

{ x becomes x - y * z. }
procedure subtract(var x: fraction; y, z: fraction);
var t: fraction;
begin
  put(t, y.above * z.above, y.below * z.below);
  put(x, x.above * t.below - t.above * x.below, x.below * t.below)
end;

{ The column j of the matrix, with factors from the left and to the right. }
procedure work(j: integer; mine: column; left, right, up, low: chan);
var k, i: integer; factors: column;
begin
  for k := 1 to j - 1 do begin
    receive(left, factors);
    if j < n then send(right, factors);
    for i := k + 1 to n do subtract(mine[i], factors[i], mine[k])
  end;
  assume mine[j].above <> 0;
  for i := 1 to n do put(factors[i], ord(i = j), 1);
  for i := j + 1 to n do begin
    put(factors[i], mine[i].above * mine[j].below, mine[i].below * mine[j].above);
    put(mine[i], 0, 1)
  end;
  if j < n then send(right, factors);
  send(up, mine);
  send(low, factors)
end;

procedure show(a: matrix);
var i, j, width: integer;
begin
  for i := 1 to n do begin
    for j := 1 to n do
      if a[j, i].below = 1 then write(a[j, i].above: 8)
      else begin
        width := 1;
        if a[j, i].below >= 10 then width := 2;
        if a[j, i].below >= 100 then width := 3;
        write(a[j, i].above: 7 - width, '/', a[j, i].below: width)
      end;
    writeln
  end
end;

{ Whether L times U is the matrix. }
procedure check;
var i, j, k: integer; rest: fraction; good: boolean;
begin
  good := true;
  for i := 1 to n do
    for j := 1 to n do begin
      rest := a[j, i];
      for k := 1 to n do subtract(rest, lower[k, i], upper[j, k]);
      good := good and (rest.above = 0)
    end;
  writeln('L times U is the matrix: ', good)
end;

begin
  for i := 1 to n do
    for j := 1 to n do begin
      read(a[j, i].above);
      a[j, i].below := 1
    end;
  for j := 1 to n do open(c[j], ups[j], lows[j]);
  parallel
    forall k := 1 to n do work(k, a[k], c[(k + n - 2) mod n + 1], c[k], ups[k], lows[k])
  |
    for j := 1 to n do begin
      receive(ups[j], upper[j]);
      receive(lows[j], lower[j])
    end
  end;
  writeln('L');
  show(lower);
  writeln('U');
  show(upper);
  check
end.
