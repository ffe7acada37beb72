{ A producer and a consumer.
  Only one number goes from the producer to the consumer. Let all go. }
program totals(input, output);
type chan = *(integer);
var c: chan;

procedure producer(c: chan);
var x: integer;
begin
  read(x);
  send(c, x)
end;

procedure consumer(c: chan);
var x, total: integer;
begin
  total := 0;
  receive(c, x);
  total := total + x;
  writeln(x: 6, total: 8)
end;

begin
  open(c);
  parallel
    producer(c)
  |
    consumer(c)
  end
end.
