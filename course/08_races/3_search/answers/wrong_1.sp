{ Mistake: a process that finds nothing sends nothing, and the root waits for its answer
  (deadlock). }
program search(input, output);
const
  parts = 4;
  size = 6;
  all = 24;
type
  chan = *(integer);
  net = array [1..parts] of chan;
  row = array [1..all] of integer;
var c: net; a: row; wanted, i, answer, place: integer;

procedure find(low, high: integer; result: chan);
var i, place: integer;
begin
  place := 0;
  for i := high downto low do
    if a[i] = wanted then place := i;
  if place > 0 then send(result, place)
end;

begin
  read(wanted);
  for i := 1 to all do read(a[i]);
  for i := 1 to parts do open(c[i]);
  place := 0;
  parallel
    forall k := 1 to parts do find((k - 1) * size + 1, k * size, c[k])
  |
    for i := 1 to parts do
      begin
        receive(c[i], answer);
        if place = 0 then place := answer
      end
  end;
  if place > 0 then writeln('place ', place: 1) else writeln('not there')
end.
