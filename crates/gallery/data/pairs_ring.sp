{ Every pair meets.
  Each node of a ring has a number of its own, and a copy of it goes round. So
  after n - 1 steps each node has seen the numbers of all others. In a step every
  node sends and receives. If all sent first, each would wait for the next one
  for ever; the parallel statement inside the node lets both happen, in either
  order. Each node adds up how far its number is from the others. }
program pairs_ring;
const n = 5;
type
  chan = *(integer);
  net = array [1..n] of chan;
var c, results: net; i, distance: integer;

procedure node(mine: integer; left, right, result: chan);
var step, guest, next, sum: integer;
begin
  guest := mine;
  sum := 0;
  for step := 1 to n - 1 do
    begin
      parallel
        send(right, guest)
      |
        receive(left, next)
      end;
      guest := next;
      sum := sum + abs(mine - guest)
    end;
  send(result, sum)
end;

begin
  for i := 1 to n do open(c[i], results[i]);
  parallel
    forall k := 1 to n do
      node(sqr(k), c[k], c[k mod n + 1], results[k])
  |
    for i := 1 to n do
      begin
        receive(results[i], distance);
        writeln(sqr(i): 3, distance: 4)
      end
  end
end.
