{ The least and the greatest number of a row, at the same time.
  Both processes use the array and none changes it. Each has an index of its own and
  a result of its own. }
program extremes(input, output);
const most = 50;
type row = array [1..most] of integer;
var a: row; n, i, least, greatest: integer;

procedure find_least(var result: integer);
var i: integer;
begin
  result := a[1];
  for i := 2 to n do
    if a[i] < result then result := a[i]
end;

procedure find_greatest(var result: integer);
var i: integer;
begin
  result := a[1];
  for i := 2 to n do
    if a[i] > result then result := a[i]
end;

begin
  read(n);
  for i := 1 to n do read(a[i]);
  parallel
    find_least(least)
  |
    find_greatest(greatest)
  end;
  writeln(least: 1, ' to ', greatest: 1)
end.
