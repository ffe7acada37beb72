{ Heat in a rod, by strips.
  These strips do not exchange their edges: each has the fixed values at both ends.
  Write the procedure exchange. }
program heat(input, output);
const
  strips = 3;
  size = 4;
  beyond = 5;
  all = 12;
type
  chan = *(integer);
  net = array [0..strips] of chan;
  strip = array [0..beyond] of integer;
  outs = array [1..strips] of chan;
var rightward, leftward: net; results: outs; left_end, right_end, steps, i, j, x: integer;

procedure exchange(k: integer; first, last: integer; var before, after: integer);
begin
  before := left_end;
  after := right_end
end;

procedure work(k: integer; result: chan);
var old, new: strip; before, after, step, i: integer;
begin
  for i := 0 to beyond do old[i] := 0;
  { The first strip has nothing before it, and the last one nothing after it. }
  before := left_end;
  after := right_end;
  for step := 1 to steps do
    begin
      exchange(k, old[1], old[size], before, after);
      old[0] := before;
      old[beyond] := after;
      new := old;
      for i := 1 to size do
        new[i] := (old[i - 1] + 2 * old[i] + old[i + 1]) div 4;
      old := new
    end;
  for i := 1 to size do send(result, old[i])
end;

begin
  read(left_end, right_end, steps);
  for i := 0 to strips do open(rightward[i], leftward[i]);
  for i := 1 to strips do open(results[i]);
  parallel
    forall k := 1 to strips do work(k, results[k])
  |
    for i := 1 to strips do
      for j := 1 to size do
        begin
          receive(results[i], x);
          write(x: 6)
        end;
    writeln
  end
end.
