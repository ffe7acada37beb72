{ Mistake: both operands of `and` are evaluated, so a[0] is read when j is 0 (fault F1). }
program insertion(input, output);
const most = 50;
type row = array [1..most] of integer;
var a: row; n, i: integer;

procedure insert(var a: row; i: integer);
var x, j: integer;
begin
  x := a[i];
  j := i - 1;
  while (j > 0) and (a[j] > x) do
      begin
        a[j + 1] := a[j];
        j := j - 1
      end;
  a[j + 1] := x
end;

begin
  read(n);
  for i := 1 to n do
    begin
      read(a[i]);
      insert(a, i)
    end;
  for i := 1 to n do write(a[i]: 6);
  writeln
end.
