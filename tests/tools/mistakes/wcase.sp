program w;
type c = *(integer);
var a: c; x: integer;
procedure p(d: c);
var y: integer;
begin
  y := 1
end;
begin
  open(a);
  parallel receive(a, x)
  | p(a)
  end
end.
