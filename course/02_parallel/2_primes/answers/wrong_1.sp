{ Mistake: all processes add to one global variable. Each changes what the others use
  (rule I1). }
program primes(input, output);
var low, high, size, total: integer;

function is_prime(x: integer): boolean;
var t: integer;
begin
  t := 2;
  while (t * t <= x) and (x mod t <> 0) do t := t + 1;
  is_prime := (x > 1) and (t * t > x)
end;

procedure count(low, high: integer);
var x: integer;
begin
  for x := low to high do
    if is_prime(x) then total := total + 1
end;

begin
  read(low, high);
  size := (high - low + 1) div 4;
  total := 0;
  parallel
    count(low, low + size - 1)
  |
    count(low + size, low + 2 * size - 1)
  |
    count(low + 2 * size, low + 3 * size - 1)
  |
    count(low + 3 * size, high)
  end;
  writeln(total: 1)
end.
