{ A router on a torus: packets find their way by steps from node to node.
  Each node has a neighbour to the right and one above; the last column and the
  last row lead back to the first. A packet goes right to its column, then up to
  its row. A node has a queue for each direction. In each round it passes the
  first packet of each queue on, or an empty one: so all nodes do the same, and
  nobody waits for a packet that does not come. Two packets that want one link
  wait in a queue, which is why some come later than their distance says. }
program torus;
const size = 4; last = 3; each = 3; rounds = 14; room = 24;
type
  packet = record full: boolean; column, row, sent, steps: integer end;
  items = array [0..room] of packet;
  queue = record first, many: integer; held: items end;
  chan = *(packet);
  line = array [0..last] of chan;
  grid = array [0..last] of line;
  report = record came, steps, late, longest: integer end;
  answer = *(report);
  answerline = array [0..last] of answer;
  answers = array [0..last] of answerline;
var rights, ups: grid; results: answers; i, j: integer;

procedure clear(var it: queue);
begin
  it.first := 0;
  it.many := 0
end;

procedure put(var it: queue; what: packet);
begin
  assume it.many < room;
  it.held[(it.first + it.many) mod room] := what;
  it.many := it.many + 1
end;

{ The first packet of a queue, or an empty one. }
procedure take(var it: queue; var what: packet);
begin
  if it.many = 0 then what.full := false
  else begin
    what := it.held[it.first];
    what.steps := what.steps + 1;
    it.first := (it.first + 1) mod room;
    it.many := it.many - 1
  end
end;

procedure node(column, row: integer; left, right, below, above: chan; result: answer);
var across, upward: queue; out, came: packet; seen: report; round: integer;

  { A packet is here, or goes on in its direction. }
  procedure sort(what: packet; round: integer);
  var late: integer;
  begin
    if what.full then
      if what.column <> column then put(across, what)
      else if what.row <> row then put(upward, what)
      else begin
        late := round - what.sent - what.steps;
        seen.came := seen.came + 1;
        seen.steps := seen.steps + what.steps;
        seen.late := seen.late + late;
        if late > seen.longest then seen.longest := late
      end
  end;

  { The packets of this node: to nodes that depend on its place. }
  procedure begin_all;
  var k: integer; what: packet;
  begin
    for k := 1 to each do begin
      what.full := true;
      what.column := (3 * column + row + k) mod size;
      what.row := (column + 2 * row + k * k) mod size;
      what.sent := 0;
      what.steps := 0;
      sort(what, 0)
    end
  end;

begin
  clear(across);
  clear(upward);
  seen.came := 0;
  seen.steps := 0;
  seen.late := 0;
  seen.longest := 0;
  begin_all;
  for round := 1 to rounds do begin
    take(across, out);
    parallel
      send(right, out)
    |
      receive(left, came)
    end;
    take(upward, out);
    sort(came, round);
    parallel
      send(above, out)
    |
      receive(below, came)
    end;
    sort(came, round)
  end;
  assume across.many + upward.many = 0;
  send(result, seen)
end;

procedure show;
var column, row, came, steps, late, longest: integer; seen: report;
begin
  came := 0;
  steps := 0;
  late := 0;
  longest := 0;
  writeln('packets that came, and how many rounds later than their distance');
  for row := last downto 0 do begin
    for column := 0 to last do begin
      receive(results[column, row], seen);
      write(seen.came: 6, seen.late: 3);
      came := came + seen.came;
      steps := steps + seen.steps;
      late := late + seen.late;
      if seen.longest > longest then longest := seen.longest
    end;
    writeln
  end;
  writeln(came: 1, ' packets, ', steps: 1, ' steps, ', late: 1, ' rounds in queues, ', longest: 1, ' at most')
end;

begin
  for i := 0 to last do
    for j := 0 to last do open(rights[i, j], ups[i, j], results[i, j]);
  parallel
    forall k := 0 to size * size - 1 do
      node(k mod size, k div size, rights[(k + last) mod size, k div size], rights[k mod size, k div size],
        ups[k mod size, (k div size + last) mod size], ups[k mod size, k div size], results[k mod size, k div size])
  |
    show
  end
end.
