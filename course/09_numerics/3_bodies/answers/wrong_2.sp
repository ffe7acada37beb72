{ Mistake: each body sends its own place in every hop. It gets the place of its left neighbour
  four times, and never those of the others. }
program bodies(input, output);
const n = 5;
type
  place = record x, y: integer end;
  link = *(place);
  net = array [1..n] of link;
  places = array [1..n] of place;
var links, results: net; begins: places; steps, i: integer; p: place;

procedure body(mine: place; left, right, result: link);
var other, speed, pull: place; step, hop: integer;
begin
  speed.x := 0;
  speed.y := 0;
  for step := 1 to steps do
    begin
      pull.x := 0;
      pull.y := 0;
      for hop := 1 to n - 1 do
        begin
          parallel
            send(right, mine)
          |
            receive(left, other)
          end;
          pull.x := pull.x + (other.x - mine.x) div 16;
          pull.y := pull.y + (other.y - mine.y) div 16
        end;
      speed.x := speed.x + pull.x;
      speed.y := speed.y + pull.y;
      mine.x := mine.x + speed.x;
      mine.y := mine.y + speed.y
    end;
  send(result, mine)
end;

begin
  read(steps);
  for i := 1 to n do
    begin
      read(begins[i].x, begins[i].y);
      open(links[i], results[i])
    end;
  parallel
    forall k := 1 to n do
      body(begins[k], links[k], links[k mod n + 1], results[k])
  |
    for i := 1 to n do
      begin
        receive(results[i], p);
        writeln(p.x: 7, p.y: 7)
      end
  end
end.
