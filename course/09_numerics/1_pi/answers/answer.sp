{ The area of a quarter of a circle's curve, in millionths.
  The area under 4 / (1 + x * x) from 0 to 1 is pi. It is cut into n strips. Worker k
  adds strips k, k + 4, k + 8 and so on, so all workers have the same work. Sums of
  integers do not depend on their order. }
program pi(input, output);
const
  workers = 4;
  scale = 1000000;
type
  chan = *(integer);
  net = array [1..workers] of chan;
var c: net; n, i, part, total: integer;

procedure work(k: integer; result: chan);
var i, sum: integer;
begin
  sum := 0;
  i := k;
  while i <= n do
    begin
      sum := sum + 16 * n * n * scale div (4 * n * n + sqr(2 * i - 1));
      i := i + workers
    end;
  send(result, sum)
end;

begin
  read(n);
  for i := 1 to workers do open(c[i]);
  total := 0;
  parallel
    forall k := 1 to workers do work(k, c[k])
  |
    for i := 1 to workers do
      begin
        receive(c[i], part);
        total := total + part
      end
  end;
  writeln(total div n)
end.
