{ Mistake: the function changes the variables of its caller. A function may change
  nothing around it (rule I8). }
program fractions(input, output);
type fraction = record top, bottom: integer end;
var sum, next: fraction; n, i: integer;

function gcd: integer;
var a, b, rest: integer;
begin
  a := abs(sum.top);
  b := sum.bottom;
  while b > 0 do
    begin
      rest := a mod b;
      a := b;
      b := rest
    end;
  sum.top := sum.top div a;
  sum.bottom := sum.bottom div a;
  gcd := a
end;

procedure add(var sum: fraction; next: fraction);
var divisor: integer;
begin
  sum.top := sum.top * next.bottom + next.top * sum.bottom;
  sum.bottom := sum.bottom * next.bottom;
  divisor := gcd
end;

begin
  sum.top := 0;
  sum.bottom := 1;
  read(n);
  for i := 1 to n do
    begin
      read(next.top, next.bottom);
      add(sum, next);
      writeln(sum.top: 1, '/', sum.bottom: 1)
    end
end.
