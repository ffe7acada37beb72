program overflow; { A fault: a sum that no integer holds. A run that a fault ends is unjudged. }
var x: integer;
begin
  x := 9223372036854775807;
  write(x + 1)
end.
