{ Sums of fractions in lowest terms.
  A fraction is a record. After each addition it is divided by the greatest common
  divisor of both parts, so the numbers stay small. A function only computes: the
  procedure add changes its variable parameter. }
program fractions(input, output);
type fraction = record top, bottom: integer end;
var sum, next: fraction; n, i: integer;

function gcd(a, b: integer): integer;
var rest: integer;
begin
  while b > 0 do
    begin
      rest := a mod b;
      a := b;
      b := rest
    end;
  gcd := a
end;

procedure add(var sum: fraction; next: fraction);
var divisor: integer;
begin
  sum.top := sum.top * next.bottom + next.top * sum.bottom;
  sum.bottom := sum.bottom * next.bottom;
  divisor := gcd(abs(sum.top), sum.bottom);
  sum.top := sum.top div divisor;
  sum.bottom := sum.bottom div divisor
end;

begin
  sum.top := 0;
  sum.bottom := 1;
  read(n);
  for i := 1 to n do
    begin
      read(next.top, next.bottom);
      add(sum, next);
      writeln(sum.top: 1, '/', sum.bottom: 1)
    end
end.
