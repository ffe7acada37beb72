{ Mistake: both processes use the global variable i as their index, so each changes what
  the other uses (rule I1). }
program extremes(input, output);
const most = 50;
type row = array [1..most] of integer;
var a: row; n, i, least, greatest: integer;

procedure find_least(var result: integer);
begin
  i := 2;
  result := a[1];
  while i <= n do
    begin
      if a[i] < result then result := a[i];
      i := i + 1
    end
end;

procedure find_greatest(var result: integer);
begin
  i := 2;
  result := a[1];
  while i <= n do
    begin
      if a[i] > result then result := a[i];
      i := i + 1
    end
end;

begin
  read(n);
  for i := 1 to n do read(a[i]);
  parallel
    find_least(least)
  |
    find_greatest(greatest)
  end;
  writeln(least: 1, ' to ', greatest: 1)
end.
