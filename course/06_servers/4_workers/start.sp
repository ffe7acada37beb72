{ A master that deals out work, and workers that are all alike.
  Here the master does all the work. Let n workers do it: the master gives each
  of them a number, and takes the answers in the same order. }
program workers(input, output);
const n = 4;
type
  line = *(integer, boolean);
  lines = array [1..n] of line;
var desk: lines;

function is_prime(x: integer): boolean;
var d: integer;
begin
  d := 2;
  while (d * d <= x) and (x mod d <> 0) do d := d + 1;
  is_prime := (x > 1) and (d * d > x)
end;

procedure master;
var x: integer;
begin
  read(x);
  while x > 0 do
    begin
      if is_prime(x) then writeln(x: 1);
      read(x)
    end
end;

begin
  master
end.
