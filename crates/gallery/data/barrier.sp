{ A barrier as a library, and a sort that uses it.
  A barrier lets nobody on before all have come. Here it is a procedure that all
  workers call, and it needs no process of its own: in round r each worker tells
  the one that is 2 to the r further on, and hears from the one as far behind;
  when the distance has passed the number of workers, everybody has heard of
  everybody. Meanwhile it finds the greatest of the values that the workers
  brought. (A sum would not come out right: with six workers some values come on
  two ways, and a greatest one does not mind.)
  The sort holds one number in each worker. In each phase pairs of neighbours
  exchange theirs if they are not in order, and the barrier tells all of them
  whether anybody did; after two phases in which nobody did, all stop together. }
program barrier(input, output);
const workers = 6; last = 5; stages = 2;
type
  numbers = array [0..last] of integer;
  chan = *(integer);
  links = array [0..last] of chan;
  net = array [0..stages] of links;
var
  stage: net;
  rights, lefts, results: links;
  given: numbers;
  i, j: integer;

{ Lets the worker me on when all have come; value becomes the greatest one. }
procedure meet(me: integer; var value: integer; stage: net);
var r, far, mine, heard: integer;
begin
  far := 1;
  for r := 0 to stages do begin
    mine := value;
    parallel
      send(stage[r, me], mine)
    |
      receive(stage[r, (me + workers - far) mod workers], heard)
    end;
    if heard > value then value := heard;
    far := 2 * far
  end
end;

{ One worker: its neighbours are those at its left and its right, if it has them. }
procedure work(me, mine: integer; stage: net; fromleft, toleft, fromright, toright, result: chan);
var phase, quiet, changed, other: integer;

  { The number of the neighbour, while it gets that of this worker. }
  procedure exchange(sink, source: chan);
  begin
    parallel
      send(sink, mine)
    |
      receive(source, other)
    end
  end;

  procedure keep(number: integer);
  begin
    if number <> mine then changed := 1;
    mine := number
  end;

  procedure pair;
  begin
    if (me + phase) mod 2 = 0 then begin
      if me < last then begin
        exchange(toright, fromright);
        if other < mine then keep(other)
      end
    end
    else if me > 0 then begin
      exchange(toleft, fromleft);
      if other > mine then keep(other)
    end
  end;

begin
  phase := 0;
  quiet := 0;
  send(result, mine);
  while quiet < 2 do begin
    changed := 0;
    pair;
    meet(me, changed, stage);
    if changed = 0 then quiet := quiet + 1
    else quiet := 0;
    phase := phase + 1;
    send(result, changed);
    send(result, mine)
  end
end;

procedure show;
var k, phase, quiet, number, changed, all: integer;
begin
  write('given  ');
  for k := 0 to last do begin
    receive(results[k], number);
    write(number: 5)
  end;
  writeln;
  phase := 0;
  quiet := 0;
  while quiet < 2 do begin
    phase := phase + 1;
    write('phase', phase: 2);
    all := 0;
    for k := 0 to last do begin
      receive(results[k], changed);
      receive(results[k], number);
      write(number: 5);
      all := all + changed
    end;
    { All of them have heard the same at the barrier. }
    assume (all = 0) or (all = workers);
    if all = 0 then begin
      quiet := quiet + 1;
      writeln('  in order')
    end
    else begin
      quiet := 0;
      writeln
    end
  end
end;

begin
  for i := 0 to last do begin
    read(given[i]);
    open(rights[i], lefts[i], results[i]);
    for j := 0 to stages do open(stage[j, i])
  end;
  { rights[k] leads from the worker k to the next one, lefts[k] from that back. }
  parallel
    forall k := 0 to last do
      work(k, given[k], stage, rights[(k + last) mod workers], lefts[(k + last) mod workers], lefts[k], rights[k],
        results[k])
  |
    show
  end
end.
