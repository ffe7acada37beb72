{ Mistake: the channel is never opened (fault F5). }
program totals(input, output);
type chan = *(integer);
var c: chan;

procedure producer(c: chan);
var x: integer;
begin
  repeat
    read(x);
    send(c, x)
  until x = 0
end;

procedure consumer(c: chan);
var x, total: integer;
begin
  total := 0;
  receive(c, x);
  while x <> 0 do
    begin
      total := total + x;
      writeln(x: 6, total: 8);
      receive(c, x)
    end
end;

begin
  parallel
    producer(c)
  |
    consumer(c)
  end
end.
