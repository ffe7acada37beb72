{ Mistake: the producer does not send the 0. The consumer waits for a message that never
  comes (deadlock). }
program totals(input, output);
type chan = *(integer);
var c: chan;

procedure producer(c: chan);
var x: integer;
begin
  read(x);
  while x <> 0 do
    begin
      send(c, x);
      read(x)
    end
end;

procedure consumer(c: chan);
var x, total: integer;
begin
  total := 0;
  receive(c, x);
  while x <> 0 do
    begin
      total := total + x;
      writeln(x: 6, total: 8);
      receive(c, x)
    end
end;

begin
  open(c);
  parallel
    producer(c)
  |
    consumer(c)
  end
end.
