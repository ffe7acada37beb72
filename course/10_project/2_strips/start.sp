{ Life on a torus, by strips.
  Here each strip is a torus of its own. Write the procedure exchange. }
program strips(input, output);
const
  n = 12;
  beyond = 13;
  parts = 3;
  size = 4;
  outside = 5;
type
  row = array [0..beyond] of integer;
  grid = array [1..n] of row;
  strip = array [0..outside] of row;
  link = *(row);
  net = array [1..parts] of link;
var g: grid; down, up, results: net; generations, i, k: integer;

procedure next_row(above, own, below: row; var result: row);
var j, living: integer;
begin
  for j := 1 to n do
    begin
      living := above[j - 1] + above[j] + above[j + 1] + own[j - 1] + own[j + 1]
        + below[j - 1] + below[j] + below[j + 1];
      if (living = 3) or (living = 2) and (own[j] = 1) then
        result[j] := 1
      else
        result[j] := 0
    end;
  result[0] := result[n];
  result[beyond] := result[1]
end;

procedure read_row(var r: row);
var j: integer; c: char;
begin
  for j := 1 to n do
    begin
      read(c);
      if c = '#' then r[j] := 1 else r[j] := 0
    end;
  readln;
  r[0] := r[n];
  r[beyond] := r[1]
end;

procedure write_row(r: row);
var j: integer;
begin
  for j := 1 to n do
    if r[j] = 1 then write('#') else write('.');
  writeln
end;

{ down[k] and up[k] join strip k and the one below it. }
procedure exchange(k: integer; first, last: row; var above, below: row);
begin
  above := last;
  below := first
end;

procedure work(k: integer; result: link);
var s, old: strip; above, below: row; generation, i: integer;
begin
  for i := 1 to size do s[i] := g[(k - 1) * size + i];
  for generation := 1 to generations do
    begin
      exchange(k, s[1], s[size], above, below);
      s[0] := above;
      s[outside] := below;
      old := s;
      for i := 1 to size do next_row(old[i - 1], old[i], old[i + 1], s[i])
    end;
  for i := 1 to size do send(result, s[i])
end;

procedure collect;
var k, i: integer; r: row;
begin
  for k := 1 to parts do
    for i := 1 to size do
      begin
        receive(results[k], r);
        write_row(r)
      end
end;

begin
  readln(generations);
  for i := 1 to n do read_row(g[i]);
  for k := 1 to parts do open(down[k], up[k], results[k]);
  parallel
    forall k := 1 to parts do work(k, results[k])
  |
    collect
  end
end.
