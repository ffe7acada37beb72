{ Sums of fractions in lowest terms.
  This program writes each fraction as it is. Let it write the sums. }
program fractions(input, output);
type fraction = record top, bottom: integer end;
var sum, next: fraction; n, i: integer;

function gcd(a, b: integer): integer;
var rest: integer;
begin
  while b > 0 do
    begin
      rest := a mod b;
      a := b;
      b := rest
    end;
  gcd := a
end;

procedure add(var sum: fraction; next: fraction);
begin
  sum := next
end;

begin
  sum.top := 0;
  sum.bottom := 1;
  read(n);
  for i := 1 to n do
    begin
      read(next.top, next.bottom);
      add(sum, next);
      writeln(sum.top: 1, '/', sum.bottom: 1)
    end
end.
