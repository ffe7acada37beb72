program pipe;
type chan = *(integer); net = array [0..3] of chan;
var c: net; r: integer;
procedure node(a, b: chan);
var x: integer;
begin receive(a, x); send(b, x + 1) end;
begin
  open(c[0], c[1], c[2], c[3]);
  parallel send(c[0], 10)
  | forall i := 1 to 3 do node(c[i-1], c[i])
  | receive(c[3], r)
  end;
  write(r)
end.
