{ Sums from the left, in a tree that stays.
  The leaves have the numbers. First the sums go up: each node adds those of its two
  children. Then they go down: a node receives the sum of all that is to its left. It
  sends its left child the same, and its right child that and the sum of the left
  one. A channel serves both ways, first up and then down. }
program prefix(input, output);
const
  leaves = 8;
  nodes = 15;
type
  chan = *(integer);
  net = array [1..nodes] of chan;
  outs = array [1..leaves] of chan;
  row = array [1..leaves] of integer;
var c: net; results: outs; a: row; i, x: integer;

procedure inner(k: integer);
var left, right, before: integer;
begin
  receive(c[2 * k], left);
  receive(c[2 * k + 1], right);
  send(c[k], left + right);
  receive(c[k], before);
  send(c[2 * k], before);
  send(c[2 * k + 1], before + left)
end;

procedure leaf(k, number: integer; result: chan);
var before: integer;
begin
  send(c[k], number);
  receive(c[k], before);
  send(result, before + number)
end;

begin
  for i := 1 to nodes do open(c[i]);
  for i := 1 to leaves do
    begin
      read(a[i]);
      open(results[i])
    end;
  parallel
    forall k := 1 to leaves - 1 do inner(k)
  |
    forall k := 1 to leaves do leaf(leaves - 1 + k, a[k], results[k])
  |
    begin
      receive(c[1], x);
      send(c[1], 0);
      for i := 1 to leaves do
        begin
          receive(results[i], x);
          write(x: 5)
        end;
      writeln
    end
  end
end.
