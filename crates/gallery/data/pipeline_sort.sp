{ Processes in a row, each with one neighbour on each side.
  Node k keeps the greatest number that has come to it and passes on the others.
  When all numbers have come, it sends its own number and then those of the
  nodes before it, so the least number comes out first. The nodes share only
  channels: the element statement of a forall may change no variable around it
  (rule I2). A send and a receive wait for each other. }
program pipeline_sort(input, output);
const n = 6;
type
  chan = *(integer);
  net = array [0..n] of chan;
var c: net; i, j, x, y: integer;

procedure node(k: integer; left, right: chan);
var j, mine, next: integer;
begin
  receive(left, mine);
  for j := k + 1 to n do
    begin
      receive(left, next);
      if next > mine then
        begin
          send(right, mine);
          mine := next
        end
      else
        send(right, next)
    end;
  send(right, mine);
  for j := 1 to k - 1 do
    begin
      receive(left, next);
      send(right, next)
    end
end;

begin
  for i := 0 to n do open(c[i]);
  parallel
    for i := 1 to n do
      begin
        read(x);
        send(c[0], x)
      end
  |
    forall k := 1 to n do node(k, c[k - 1], c[k])
  |
    for j := 1 to n do
      begin
        receive(c[n], y);
        write(y: 4)
      end
  end;
  writeln
end.
