{ An election on any connected graph, and a tree that it leaves.
  A node knows its own number and its edges, not how many nodes there are beyond
  them; only a bound on the rounds. In each round it tells its neighbours the
  greatest number that it has heard of. The edge by which the winner's number
  first came leads towards the winner: these edges are a tree. Along it each
  node sends up how many nodes are below it, and the winner knows how many took
  part. The two ends of an edge exchange at once, and each node takes its edges
  in the order of their numbers. In a circle of nodes that wait for each other
  some edge would have to come before itself: so there is no deadlock. }
program graph_election(input, output);
const nodes = 8; most = 16;
type
  edge = record one, other: integer end;
  edges = array [1..most] of edge;
  graph = record many: integer; edge: edges end;
  marks = array [1..most] of boolean;
  state = record leader, distance, way, below: integer end;
  chan = *(state, boolean, integer);
  net = array [1..most] of chan;
  answer = *(state);
  answers = array [1..nodes] of answer;
var g: graph; there, back: net; results: answers; i: integer;

procedure read_graph;
var e: integer;
begin
  read(g.many);
  assume (g.many >= 1) and (g.many <= most);
  for e := 1 to g.many do read(g.edge[e].one, g.edge[e].other)
end;

{ The node me has the number mine. }
procedure node(me, mine: integer; g: graph; there, back: net; result: answer);
var round, e, many: integer; now, next, heard: state; children: marks; is_child: boolean;

  function touches(e: integer): boolean;
  begin
    touches := (g.edge[e].one = me) or (g.edge[e].other = me)
  end;

  { What the neighbour at the edge e has heard of. }
  procedure compare(e: integer);
  begin
    if heard.leader > next.leader then begin
      next.leader := heard.leader;
      next.distance := heard.distance + 1;
      next.way := e
    end
  end;

  procedure exchange(e: integer);
  begin
    if g.edge[e].one = me then
      parallel
        send(there[e], now)
      |
        receive(back[e], heard)
      end
    else
      parallel
        send(back[e], now)
      |
        receive(there[e], heard)
      end
  end;

  { Tells the neighbour at the edge e whether it is the parent of this node. }
  procedure ask(e: integer);
  begin
    if g.edge[e].one = me then
      parallel
        send(there[e], now.way = e)
      |
        receive(back[e], is_child)
      end
    else
      parallel
        send(back[e], now.way = e)
      |
        receive(there[e], is_child)
      end;
    children[e] := is_child
  end;

  { The nodes below are counted from the leaves up. }
  procedure count;
  var e: integer;
  begin
    now.below := 1;
    for e := 1 to g.many do
      if touches(e) then
        if children[e] then begin
          if g.edge[e].one = me then receive(back[e], many)
          else receive(there[e], many);
          now.below := now.below + many
        end;
    if now.way > 0 then
      if g.edge[now.way].one = me then send(there[now.way], now.below)
      else send(back[now.way], now.below)
  end;

begin
  now.leader := mine;
  now.distance := 0;
  now.way := 0;
  now.below := 0;
  for round := 1 to nodes - 1 do begin
    next := now;
    for e := 1 to g.many do
      if touches(e) then begin
        exchange(e);
        compare(e)
      end;
    now := next
  end;
  for e := 1 to g.many do
    if touches(e) then ask(e);
  count;
  send(result, now)
end;

procedure show;
var k, up: integer; seen: state;
begin
  for k := 1 to nodes do begin
    receive(results[k], seen);
    write('node ', k: 1, ', number', 5 * k mod 13: 3, ': leader', seen.leader: 3);
    if seen.way = 0 then writeln(', elected by ', seen.below: 1, ' nodes')
    else begin
      up := g.edge[seen.way].one + g.edge[seen.way].other - k;
      writeln(', ', seen.distance: 1, ' away by node ', up: 1, ', ', seen.below: 1, ' below')
    end
  end
end;

begin
  read_graph;
  for i := 1 to g.many do open(there[i], back[i]);
  for i := 1 to nodes do open(results[i]);
  parallel
    forall k := 1 to nodes do node(k, 5 * k mod 13, g, there, back, results[k])
  |
    show
  end
end.
