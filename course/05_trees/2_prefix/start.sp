{ Sums from the left, in a tree that stays.
  Here the sums go up, and nothing comes down. The output is the sum of all. }
program prefix(input, output);
const
  leaves = 8;
  nodes = 15;
type
  chan = *(integer);
  net = array [1..nodes] of chan;
  outs = array [1..leaves] of chan;
  row = array [1..leaves] of integer;
var c: net; results: outs; a: row; i, x: integer;

procedure inner(k: integer);
var left, right: integer;
begin
  receive(c[2 * k], left);
  receive(c[2 * k + 1], right);
  send(c[k], left + right)
end;

procedure leaf(k, number: integer);
begin
  send(c[k], number)
end;

begin
  for i := 1 to nodes do open(c[i]);
  for i := 1 to leaves do
    begin
      read(a[i]);
      open(results[i])
    end;
  parallel
    forall k := 1 to leaves - 1 do inner(k)
  |
    forall k := 1 to leaves do leaf(leaves - 1 + k, a[k])
  |
    begin
      receive(c[1], x);
      writeln(x: 5)
    end
  end
end.
