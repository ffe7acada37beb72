{ The area of a quarter of a circle's curve, in millionths.
  Here worker 1 alone adds its strips. Let all four work. }
program pi(input, output);
const
  workers = 4;
  scale = 1000000;
type
  chan = *(integer);
  net = array [1..workers] of chan;
var c: net; n, i, part, total: integer;

procedure work(k: integer; result: chan);
var i, sum: integer;
begin
  sum := 0;
  i := k;
  while i <= n do
    begin
      sum := sum + 16 * n * n * scale div (4 * n * n + sqr(2 * i - 1));
      i := i + workers
    end;
  send(result, sum)
end;

begin
  read(n);
  for i := 1 to workers do open(c[i]);
  total := 0;
  parallel
    work(1, c[1])
  |
    receive(c[1], part);
    total := total + part
  end;
  writeln(total div n)
end.
