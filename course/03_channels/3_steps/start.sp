{ Steps to 1, for many numbers at the same time.
  Here one process computes the chain of n. Let n processes compute those of 1 to n. }
program steps(input, output);
const most = 40;
type
  chan = *(integer);
  net = array [1..most] of chan;
var c: net; n, i, length: integer;

procedure chain(x: integer; result: chan);
var length: integer;
begin
  length := 0;
  while x <> 1 do
    begin
      if odd(x) then x := 3 * x + 1 else x := x div 2;
      length := length + 1
    end;
  send(result, length)
end;

begin
  read(n);
  i := n;
  open(c[i]);
  parallel
    chain(n, c[n])
  |
    receive(c[i], length);
    writeln(i: 3, length: 5)
  end
end.
