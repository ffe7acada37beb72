{ Mistake: the workers add to one variable. No process of a forall may change a variable from
  around it (rule I2). }
program pi(input, output);
const
  workers = 4;
  scale = 1000000;
type
  chan = *(integer);
  net = array [1..workers] of chan;
var n, total: integer;

procedure work(k: integer);
var i: integer;
begin
  i := k;
  while i <= n do
    begin
      total := total + 16 * n * n * scale div (4 * n * n + sqr(2 * i - 1));
      i := i + workers
    end
end;

begin
  read(n);
  total := 0;
  forall k := 1 to workers do work(k);
  writeln(total div n)
end.
