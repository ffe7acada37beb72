{ An elevator: the floors, the car and a clock that nobody owns.
  Each floor is a process with the people who will come there. In each tick the
  floors say how many wait, the car tells each how many may step in (none, if
  it is not there), and takes them. Ticks are no variable that all share: each
  process counts its own, and no floor is a tick ahead, since it must hear from
  the car. The car goes on in its direction while somebody there wants it, and
  turns if not. Only the car writes, so the lines come in order. }
program elevator(input, output);
const floors = 6; most = 12; ticks = 40; seats = 3;
type
  person = record tick, source, target: integer end;
  people = array [1..most] of person;
  group = record many: integer; who: people end;
  numbers = array [1..floors] of integer;
  counts = *(integer);
  groups = *(group);
  calls = array [1..floors] of counts;
  doors = array [1..floors] of groups;
var
  coming: group;
  waiting, places: calls;
  entries: doors;
  i: integer;

procedure read_people;
var k: integer;
begin
  read(coming.many);
  assume (coming.many >= 0) and (coming.many <= most);
  for k := 1 to coming.many do
    read(coming.who[k].tick, coming.who[k].source, coming.who[k].target)
end;

procedure floor(me: integer; coming: group; call, place: counts; door: groups);
var tick, k, free: integer; here, stepping: group;

  { A person who comes at this tick waits after the others. }
  procedure come(tick: integer);
  var k: integer;
  begin
    for k := 1 to coming.many do
      if (coming.who[k].source = me) and (coming.who[k].tick = tick) then begin
        here.many := here.many + 1;
        here.who[here.many] := coming.who[k]
      end
  end;

  { The first of those who wait step in; the others move up. }
  procedure leave(free: integer);
  var k: integer;
  begin
    stepping.many := 0;
    while (here.many > 0) and (stepping.many < free) do begin
      stepping.many := stepping.many + 1;
      stepping.who[stepping.many] := here.who[1];
      here.many := here.many - 1;
      for k := 1 to here.many do here.who[k] := here.who[k + 1]
    end
  end;

begin
  here.many := 0;
  for tick := 1 to ticks do begin
    come(tick);
    send(call, here.many);
    receive(place, free);
    if free > 0 then begin
      leave(free);
      send(door, stepping)
    end
  end
end;

procedure car;
var
  tick, at, way, f, stepped, left, arrived, waits: integer;
  called: numbers;
  inside, new: group;

  { Those who are at their floor step out. }
  procedure unload;
  var k, kept: integer;
  begin
    kept := 0;
    for k := 1 to inside.many do
      if inside.who[k].target = at then begin
        arrived := arrived + 1;
        waits := waits + tick - inside.who[k].tick
      end
      else begin
        kept := kept + 1;
        inside.who[kept] := inside.who[k]
      end;
    left := inside.many - kept;
    inside.many := kept
  end;

  procedure load;
  var k: integer;
  begin
    for k := 1 to new.many do inside.who[inside.many + k] := new.who[k];
    inside.many := inside.many + new.many
  end;

  { Whether somebody wants a floor in this direction. }
  function wanted(way: integer): boolean;
  var f, k: integer; found: boolean;
  begin
    found := false;
    for f := 1 to floors do found := found or (called[f] > 0) and ((f - at) * way > 0);
    for k := 1 to inside.many do found := found or ((inside.who[k].target - at) * way > 0);
    wanted := found
  end;

  procedure stop;
  var f: integer;
  begin
    unload;
    stepped := 0;
    for f := 1 to floors do
      if (f = at) and (called[f] > 0) and (inside.many < seats) then begin
        send(places[f], seats - inside.many);
        receive(entries[f], new);
        load;
        stepped := new.many;
        called[f] := called[f] - stepped
      end
      else send(places[f], 0);
    if stepped + left > 0 then
      writeln('tick', tick: 3, ', floor ', at: 1, ': ', left: 1, ' out, ', stepped: 1, ' in, ', inside.many: 1,
        ' inside')
  end;

  procedure move;
  begin
    if not wanted(way) then way := -way;
    if wanted(way) then at := at + way
  end;

begin
  at := 1;
  way := 1;
  inside.many := 0;
  arrived := 0;
  waits := 0;
  for tick := 1 to ticks do begin
    for f := 1 to floors do receive(waiting[f], called[f]);
    stop;
    { Doors take a tick: the car moves if nobody steps. }
    if stepped + left = 0 then move
  end;
  writeln(arrived: 1, ' people, ', waits: 1, ' ticks together, ', inside.many: 1, ' still inside')
end;

begin
  read_people;
  for i := 1 to floors do open(waiting[i], places[i], entries[i]);
  parallel
    forall f := 1 to floors do floor(f, coming, waiting[f], places[f], entries[f])
  |
    car
  end
end.
