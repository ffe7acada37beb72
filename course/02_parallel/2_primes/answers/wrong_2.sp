{ Mistake: the last range has the size of the others, so up to three numbers at the end are
  left out. }
program primes(input, output);
var low, high, size, a, b, c, d: integer;

function is_prime(x: integer): boolean;
var t: integer;
begin
  t := 2;
  while (t * t <= x) and (x mod t <> 0) do t := t + 1;
  is_prime := (x > 1) and (t * t > x)
end;

procedure count(low, high: integer; var result: integer);
var x: integer;
begin
  result := 0;
  for x := low to high do
    if is_prime(x) then result := result + 1
end;

begin
  read(low, high);
  size := (high - low + 1) div 4;
  parallel
    count(low, low + size - 1, a)
  |
    count(low + size, low + 2 * size - 1, b)
  |
    count(low + 2 * size, low + 3 * size - 1, c)
  |
    count(low + 3 * size, low + 4 * size - 1, d)
  end;
  writeln(a: 1, b: 5, c: 5, d: 5, a + b + c + d: 7)
end.
