{ Mistake: each worker divides its own sum by n. Up to three millionths are lost. }
program pi(input, output);
const
  workers = 4;
  scale = 1000000;
type
  chan = *(integer);
  net = array [1..workers] of chan;
var c: net; n, i, part, total: integer;

procedure work(k: integer; result: chan);
var i, sum: integer;
begin
  sum := 0;
  i := k;
  while i <= n do
    begin
      sum := sum + 16 * n * n * scale div (4 * n * n + sqr(2 * i - 1));
      i := i + workers
    end;
  send(result, sum div n)
end;

begin
  read(n);
  for i := 1 to workers do open(c[i]);
  total := 0;
  parallel
    forall k := 1 to workers do work(k, c[k])
  |
    for i := 1 to workers do
      begin
        receive(c[i], part);
        total := total + part
      end
  end;
  writeln(total)
end.
