program mistyped; { Refused with Y5 at the expression: a char is assigned to an integer. }
var x: integer;
begin
  x := 'a'
end.
