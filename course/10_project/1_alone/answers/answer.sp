{ Life on a torus, by one process.
  A row has copies of its last cell before its first, and of its first cell after its
  last, and so have the rows of the grid. So no cell is at a border. The procedure
  next_row computes one row from three old ones, and changes nothing else. }
program alone(input, output);
const
  n = 12;
  beyond = 13;
type
  row = array [0..beyond] of integer;
  grid = array [0..beyond] of row;
var g: grid; generations, i: integer;

procedure next_row(above, own, below: row; var result: row);
var j, living: integer;
begin
  for j := 1 to n do
    begin
      living := above[j - 1] + above[j] + above[j + 1] + own[j - 1] + own[j + 1]
        + below[j - 1] + below[j] + below[j + 1];
      if (living = 3) or (living = 2) and (own[j] = 1) then
        result[j] := 1
      else
        result[j] := 0
    end;
  result[0] := result[n];
  result[beyond] := result[1]
end;

procedure read_row(var r: row);
var j: integer; c: char;
begin
  for j := 1 to n do
    begin
      read(c);
      if c = '#' then r[j] := 1 else r[j] := 0
    end;
  readln;
  r[0] := r[n];
  r[beyond] := r[1]
end;

procedure write_row(r: row);
var j: integer;
begin
  for j := 1 to n do
    if r[j] = 1 then write('#') else write('.');
  writeln
end;

procedure step(var g: grid);
var old: grid; i: integer;
begin
  g[0] := g[n];
  g[beyond] := g[1];
  old := g;
  for i := 1 to n do next_row(old[i - 1], old[i], old[i + 1], g[i])
end;

begin
  readln(generations);
  for i := 1 to n do read_row(g[i]);
  for i := 1 to generations do step(g);
  for i := 1 to n do write_row(g[i])
end.
