program answer;
var x: integer;
begin
  x := 6;
  writeln(x * 7)
end.
