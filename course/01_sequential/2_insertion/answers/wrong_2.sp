{ Mistake: the search stops before the first number, which is never compared. A smaller
  number stays after it. }
program insertion(input, output);
const most = 50;
type row = array [1..most] of integer;
var a: row; n, i: integer;

procedure insert(var a: row; i: integer);
var x, j: integer; searching: boolean;
begin
  x := a[i];
  j := i - 1;
  searching := true;
  while searching do
    if j <= 1 then
      searching := false
    else if a[j] <= x then
      searching := false
    else
      begin
        a[j + 1] := a[j];
        j := j - 1
      end;
  a[j + 1] := x
end;

begin
  read(n);
  for i := 1 to n do
    begin
      read(a[i]);
      insert(a, i)
    end;
  for i := 1 to n do write(a[i]: 6);
  writeln
end.
