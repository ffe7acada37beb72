{ Sorting by insertion.
  This program writes the numbers as they come. Let insert bring number i to its
  place among those before it. }
program insertion(input, output);
const most = 50;
type row = array [1..most] of integer;
var a: row; n, i: integer;

procedure insert(var a: row; i: integer);
var x: integer;
begin
  x := a[i];
  a[i] := x
end;

begin
  read(n);
  for i := 1 to n do
    begin
      read(a[i]);
      insert(a, i)
    end;
  for i := 1 to n do write(a[i]: 6);
  writeln
end.
