{ A master that deals out work, and workers that are all alike.
  The master reads numbers and gives one to each worker. It takes their answers in
  the same order, so the output does not depend on who is ready first. While it
  waits for the first one, all others work. A worker does not know how many
  numbers come: a last message, 0, ends it. }
program workers(input, output);
const n = 4;
type
  line = *(integer, boolean);
  lines = array [1..n] of line;
  row = array [1..n] of integer;
var desk: lines; i: integer;

function is_prime(x: integer): boolean;
var d: integer;
begin
  d := 2;
  while (d * d <= x) and (x mod d <> 0) do d := d + 1;
  is_prime := (x > 1) and (d * d > x)
end;

procedure worker(desk: line);
var x: integer;
begin
  receive(desk, x);
  while x > 0 do
    begin
      send(desk, is_prime(x));
      receive(desk, x)
    end
end;

procedure master;
var dealt: row; x, k, count: integer; prime: boolean;
begin
  read(x);
  while x > 0 do
    begin
      count := 0;
      while (x > 0) and (count < n) do
        begin
          count := count + 1;
          dealt[count] := x;
          send(desk[count], x);
          read(x)
        end;
      for k := 1 to count do
        begin
          receive(desk[k], prime);
          if prime then writeln(dealt[k]: 1)
        end
    end;
  for k := 1 to n do send(desk[k], 0)
end;

begin
  for i := 1 to n do open(desk[i]);
  parallel
    master
  |
    forall k := 1 to n do worker(desk[k])
  end
end.
