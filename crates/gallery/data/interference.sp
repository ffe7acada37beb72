{ Refused: two processes and one variable.
  The second process statement reads x, which the first one changes. What would
  be written depends on which of them comes first, so the text is refused with
  rule I1, at the first token of the later process statement. }
program interference;
var x: integer;
begin
  x := 1;
  parallel
    x := x + 1
  |
    write(x)
  end
end.
