{ Mistake: all processes send on one channel. Two of them send at once (fault F6), and who is
  first is not determined. }
program steps(input, output);
const most = 40;
type
  chan = *(integer);
  net = array [1..most] of chan;
var c: net; n, i, length: integer;

procedure chain(x: integer; result: chan);
var length: integer;
begin
  length := 0;
  while x <> 1 do
    begin
      if odd(x) then x := 3 * x + 1 else x := x div 2;
      length := length + 1
    end;
  send(result, length)
end;

begin
  read(n);
  for i := 1 to n do open(c[i]);
  parallel
    forall k := 1 to n do chain(k, c[1])
  |
    for i := 1 to n do
      begin
        receive(c[1], length);
        writeln(i: 3, length: 5)
      end
  end
end.
