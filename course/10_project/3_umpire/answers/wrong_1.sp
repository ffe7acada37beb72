{ Mistake: the umpire ends without an answer when the game is over. The strips wait for it
  (deadlock). }
program umpire(input, output);
const
  n = 12;
  beyond = 13;
  parts = 3;
  size = 4;
  outside = 5;
type
  row = array [0..beyond] of integer;
  grid = array [1..n] of row;
  strip = array [0..outside] of row;
  link = *(row);
  net = array [1..parts] of link;
  desk = *(integer, boolean);
  desks = array [1..parts] of desk;
var g: grid; down, up: net; reports: desks; generations, i, k: integer;

procedure next_row(above, own, below: row; var result: row);
var j, living: integer;
begin
  for j := 1 to n do
    begin
      living := above[j - 1] + above[j] + above[j + 1] + own[j - 1] + own[j + 1]
        + below[j - 1] + below[j] + below[j + 1];
      if (living = 3) or (living = 2) and (own[j] = 1) then
        result[j] := 1
      else
        result[j] := 0
    end;
  result[0] := result[n];
  result[beyond] := result[1]
end;

procedure read_row(var r: row);
var j: integer; c: char;
begin
  for j := 1 to n do
    begin
      read(c);
      if c = '#' then r[j] := 1 else r[j] := 0
    end;
  readln;
  r[0] := r[n];
  r[beyond] := r[1]
end;

{ down[k] and up[k] join strip k and the one below it. }
procedure exchange(k: integer; first, last: row; var above, below: row);
var before: integer;
begin
  before := (k + parts - 2) mod parts + 1;
  parallel
    send(up[before], first)
  |
    receive(down[before], above)
  |
    send(down[k], last)
  |
    receive(up[k], below)
  end
end;

function living(s: strip): integer;
var i, j, sum: integer;
begin
  sum := 0;
  for i := 1 to size do
    for j := 1 to n do
      sum := sum + s[i, j];
  living := sum
end;

procedure work(k: integer; report: desk);
var s, old: strip; above, below: row; i: integer; goes_on: boolean;
begin
  for i := 1 to size do s[i] := g[(k - 1) * size + i];
  send(report, living(s));
  receive(report, goes_on);
  while goes_on do
    begin
      exchange(k, s[1], s[size], above, below);
      s[0] := above;
      s[outside] := below;
      old := s;
      for i := 1 to size do next_row(old[i - 1], old[i], old[i + 1], s[i]);
      send(report, living(s));
      receive(report, goes_on)
    end
end;

procedure judge;
var k, part, sum, generation: integer; goes_on: boolean;
begin
  generation := 0;
  repeat
    sum := 0;
    for k := 1 to parts do
      begin
        receive(reports[k], part);
        sum := sum + part
      end;
    writeln('generation', generation: 3, ':', sum: 4, ' alive');
    goes_on := (sum > 0) and (generation < generations);
    if goes_on then
      for k := 1 to parts do send(reports[k], goes_on);
    generation := generation + 1
  until not goes_on
end;

begin
  readln(generations);
  for i := 1 to n do read_row(g[i]);
  for k := 1 to parts do open(down[k], up[k], reports[k]);
  parallel
    forall k := 1 to parts do work(k, reports[k])
  |
    judge
  end
end.
