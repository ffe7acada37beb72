{ Primes in four ranges, counted at the same time.
  This program counts one quarter. Let four processes count all. }
program primes(input, output);
var low, high, size, a: integer;

function is_prime(x: integer): boolean;
var t: integer;
begin
  t := 2;
  while (t * t <= x) and (x mod t <> 0) do t := t + 1;
  is_prime := (x > 1) and (t * t > x)
end;

procedure count(low, high: integer; var result: integer);
var x: integer;
begin
  result := 0;
  for x := low to high do
    if is_prime(x) then result := result + 1
end;

begin
  read(low, high);
  size := (high - low + 1) div 4;
  count(low, low + size - 1, a);
  writeln(a: 1)
end.
