{ Mistake: a body moves as soon as it knows one place. The places that come later are compared
  with a place that it has left. }
program bodies(input, output);
const n = 5;
type
  place = record x, y: integer end;
  link = *(place);
  net = array [1..n] of link;
  places = array [1..n] of place;
var links, results: net; begins: places; steps, i: integer; p: place;

procedure body(mine: place; left, right, result: link);
var passing, other, pull: place; step, hop: integer;
begin
  for step := 1 to steps do
    begin
      pull.x := 0;
      pull.y := 0;
      passing := mine;
      for hop := 1 to n - 1 do
        begin
          parallel
            send(right, passing)
          |
            receive(left, other)
          end;
          pull.x := pull.x + (other.x - mine.x) div 16;
          pull.y := pull.y + (other.y - mine.y) div 16;
          passing := other;
          mine.x := mine.x + pull.x;
          mine.y := mine.y + pull.y
        end
    end;
  send(result, mine)
end;

begin
  read(steps);
  for i := 1 to n do
    begin
      read(begins[i].x, begins[i].y);
      open(links[i], results[i])
    end;
  parallel
    forall k := 1 to n do
      body(begins[k], links[k], links[k mod n + 1], results[k])
  |
    for i := 1 to n do
      begin
        receive(results[i], p);
        writeln(p.x: 7, p.y: 7)
      end
  end
end.
