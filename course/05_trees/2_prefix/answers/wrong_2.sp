{ Mistake: the program does not send 0 down to the first node. All nodes wait for what is to
  their left (deadlock). }
program prefix(input, output);
const
  leaves = 8;
  nodes = 15;
type
  chan = *(integer);
  net = array [1..nodes] of chan;
  outs = array [1..leaves] of chan;
  row = array [1..leaves] of integer;
var c: net; results: outs; a: row; i, x: integer;

procedure inner(k: integer);
var left, right, before: integer;
begin
  receive(c[2 * k], left);
  receive(c[2 * k + 1], right);
  send(c[k], left + right);
  receive(c[k], before);
  send(c[2 * k], before);
  send(c[2 * k + 1], before + left)
end;

procedure leaf(k, number: integer; result: chan);
var before: integer;
begin
  send(c[k], number);
  receive(c[k], before);
  send(result, before + number)
end;

begin
  for i := 1 to nodes do open(c[i]);
  for i := 1 to leaves do
    begin
      read(a[i]);
      open(results[i])
    end;
  parallel
    forall k := 1 to leaves - 1 do inner(k)
  |
    forall k := 1 to leaves do leaf(leaves - 1 + k, a[k], results[k])
  |
    begin
      receive(c[1], x);
      for i := 1 to leaves do
        begin
          receive(results[i], x);
          write(x: 5)
        end;
      writeln
    end
  end
end.
