{ Mistake: the processes of a forall assign elements of one array. An array is one variable,
  and no process of a forall may change a variable from around it (rule I2). }
program steps(input, output);
const most = 40;
type row = array [1..most] of integer;
var lengths: row; n, i: integer;

procedure chain(x: integer; var length: integer);
begin
  length := 0;
  while x <> 1 do
    begin
      if odd(x) then x := 3 * x + 1 else x := x div 2;
      length := length + 1
    end
end;

begin
  read(n);
  forall k := 1 to n do chain(k, lengths[k]);
  for i := 1 to n do writeln(i: 3, lengths[i]: 5)
end.
