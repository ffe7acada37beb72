program unfinished; { Refused with G2 at the end of the text: what stands there is only the beginning of a program. }
var x: integer;
begin
  x := 6;
  write(x *

