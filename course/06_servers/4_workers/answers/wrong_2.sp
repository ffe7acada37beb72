{ Mistake: the master deals all numbers before it takes an answer. So worker 1 sends its
  answer, and at the same time the master sends it the next number, on the same
  channel (fault F6). With two channels it would be a deadlock. }
program workers(input, output);
const n = 4;
type
  line = *(integer, boolean);
  lines = array [1..n] of line;
  row = array [1..100] of integer;
var desk: lines; i: integer;

function is_prime(x: integer): boolean;
var d: integer;
begin
  d := 2;
  while (d * d <= x) and (x mod d <> 0) do d := d + 1;
  is_prime := (x > 1) and (d * d > x)
end;

procedure worker(desk: line);
var x: integer;
begin
  receive(desk, x);
  while x > 0 do
    begin
      send(desk, is_prime(x));
      receive(desk, x)
    end
end;

procedure master;
var dealt: row; x, k, count: integer; prime: boolean;
begin
  read(x);
  count := 0;
  while x > 0 do
    begin
      count := count + 1;
      dealt[count] := x;
      send(desk[(count - 1) mod n + 1], x);
      read(x)
    end;
  for k := 1 to count do
    begin
      receive(desk[(k - 1) mod n + 1], prime);
      if prime then writeln(dealt[k]: 1)
    end;
  for k := 1 to n do send(desk[k], 0)
end;

begin
  for i := 1 to n do open(desk[i]);
  parallel
    master
  |
    forall k := 1 to n do worker(desk[k])
  end
end.
