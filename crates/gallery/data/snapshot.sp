{ A distributed snapshot (Chandy and Lamport): how much money there is, while it
  moves. Each node sends money both ways round a ring; each link holds it for
  some rounds, as a process with a queue. Nobody can look at all nodes at once.
  So node 1 notes its own money and sends a marker on both links. A node
  that gets its first marker notes its own money too, and passes markers on;
  what comes on the other link before the marker there was under way when the
  picture was taken. Nodes and links of the picture together have all the money,
  although there was no moment at which they had it so. }
program snapshot;
const nodes = 4; rounds = 14; begun = 4; longest = 3;
type
  message = record marked: boolean; amount: integer end;
  chan = *(message);
  net = array [1..nodes] of chan;
  pair = array [1..2] of integer;
  flags = array [1..2] of boolean;
  picture = record own: integer; coming: pair; whole: boolean; now: integer end;
  answer = *(picture);
  answers = array [1..nodes] of answer;
  queue = array [0..longest] of message;
var
  rightgoing, rightcoming, leftgoing, leftcoming: net;
  results: answers;
  k: integer;

{ A message comes out delay rounds after it went in. }
procedure link(delay: integer; source, sink: chan);
var round, at: integer; held: queue; old, new: message;
begin
  for at := 0 to longest do begin
    held[at].marked := false;
    held[at].amount := 0
  end;
  at := 0;
  for round := 1 to rounds do begin
    old := held[at];
    parallel
      send(sink, old)
    |
      receive(source, new)
    end;
    held[at] := new;
    at := (at + 1) mod delay
  end
end;

procedure node(me: integer; toleft, toright, fromleft, fromright: chan; result: answer);
var
  round, money: integer;
  noted, passing: boolean;
  closed: flags;
  seen: picture;
  left, right, one, other: message;

  procedure note;
  begin
    noted := true;
    passing := true;
    seen.own := money
  end;

  { What came on one side: a marker stands before the money beside it. }
  procedure take(came: message; side: integer);
  begin
    if came.marked then begin
      if not noted then note;
      closed[side] := true
    end;
    if noted and not closed[side] then seen.coming[side] := seen.coming[side] + came.amount;
    money := money + came.amount
  end;

  procedure part;
  begin
    right.amount := money div (me + 2);
    left.amount := (money - right.amount) div 5;
    money := money - right.amount - left.amount;
    right.marked := passing;
    left.marked := passing;
    passing := false
  end;

begin
  money := 100 * me;
  noted := false;
  passing := false;
  closed[1] := false;
  closed[2] := false;
  seen.coming[1] := 0;
  seen.coming[2] := 0;
  for round := 1 to rounds do begin
    if (me = 1) and (round = begun) then note;
    part;
    parallel
      send(toleft, left)
    |
      send(toright, right)
    |
      receive(fromleft, one)
    |
      receive(fromright, other)
    end;
    take(one, 1);
    take(other, 2)
  end;
  seen.whole := noted and closed[1] and closed[2];
  seen.now := money;
  send(result, seen)
end;

procedure show;
var k, all: integer; seen: picture;
begin
  all := 0;
  writeln('node  had  from left  from right  has now');
  for k := 1 to nodes do begin
    receive(results[k], seen);
    assume seen.whole;
    all := all + seen.own + seen.coming[1] + seen.coming[2];
    writeln(k: 4, seen.own: 5, seen.coming[1]: 11, seen.coming[2]: 12, seen.now: 9)
  end;
  writeln('in the picture ', all: 1)
end;

begin
  for k := 1 to nodes do open(rightgoing[k], rightcoming[k], leftgoing[k], leftcoming[k], results[k]);
  { The link k that goes to the right leads from the node k to the next one, the
    other one back. }
  parallel
    forall k := 1 to nodes do
      node(k, leftgoing[(k + 2) mod nodes + 1], rightgoing[k],
        rightcoming[(k + 2) mod nodes + 1], leftcoming[k], results[k])
  |
    forall k := 1 to nodes do link(k mod longest + 1, rightgoing[k], rightcoming[k])
  |
    forall k := 1 to nodes do link((k + 1) mod longest + 1, leftgoing[k], leftcoming[k])
  |
    show
  end
end.
