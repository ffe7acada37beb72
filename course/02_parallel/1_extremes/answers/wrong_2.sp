{ Mistake: the two searches come one after the other. The output is right, but no process
  is started. }
program extremes(input, output);
const most = 50;
type row = array [1..most] of integer;
var a: row; n, i, least, greatest: integer;

procedure find_least(var result: integer);
var i: integer;
begin
  result := a[1];
  for i := 2 to n do
    if a[i] < result then result := a[i]
end;

procedure find_greatest(var result: integer);
var i: integer;
begin
  result := a[1];
  for i := 2 to n do
    if a[i] > result then result := a[i]
end;

begin
  read(n);
  for i := 1 to n do read(a[i]);
  find_least(least);
  find_greatest(greatest);
  writeln(least: 1, ' to ', greatest: 1)
end.
