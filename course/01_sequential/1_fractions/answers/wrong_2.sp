{ Mistake: the sum is reduced only when it is written. The parts grow with each addition,
  until no integer holds them (fault F2). }
program fractions(input, output);
type fraction = record top, bottom: integer end;
var sum, next: fraction; n, i, divisor: integer;

function gcd(a, b: integer): integer;
var rest: integer;
begin
  while b > 0 do
    begin
      rest := a mod b;
      a := b;
      b := rest
    end;
  gcd := a
end;

procedure add(var sum: fraction; next: fraction);
begin
  sum.top := sum.top * next.bottom + next.top * sum.bottom;
  sum.bottom := sum.bottom * next.bottom
end;

begin
  sum.top := 0;
  sum.bottom := 1;
  read(n);
  for i := 1 to n do
    begin
      read(next.top, next.bottom);
      add(sum, next);
      divisor := gcd(abs(sum.top), sum.bottom);
      writeln(sum.top div divisor: 1, '/', sum.bottom div divisor: 1)
    end
end.
