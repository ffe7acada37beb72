{ The least and the greatest number of a row, at the same time.
  Here the least number is written twice. Let a second process find the greatest.) }
program extremes(input, output);
const most = 50;
type row = array [1..most] of integer;
var a: row; n, i, least, greatest: integer;

procedure find_least(var result: integer);
var i: integer;
begin
  result := a[1];
  for i := 2 to n do
    if a[i] < result then result := a[i]
end;

begin
  read(n);
  for i := 1 to n do read(a[i]);
  find_least(least);
  greatest := least;
  writeln(least: 1, ' to ', greatest: 1)
end.
