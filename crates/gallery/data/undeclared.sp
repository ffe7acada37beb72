program undeclared; { Refused with N1 at the name y, which nothing declares. }
var x: integer;
begin
  y := 6
end.
