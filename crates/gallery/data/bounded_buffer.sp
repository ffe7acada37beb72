{ A bounded buffer with two ends, in one process.
  A ring of cells holds what came in and has not gone out. There is no choice
  among channels, so the process cannot serve whichever end comes first. But a
  parallel statement serves both ends at once, in either order. So the buffer is
  filled, then takes one number in for each that goes out, then is emptied: the
  producer may be ahead of the consumer by what it holds. A last number, 0, says
  that no more come. }
program bounded_buffer(input, output);
const room = 3;
type
  chan = *(integer);
  store = array [0..room] of integer;
var left, right: chan;

procedure producer(right: chan);
var x: integer;
begin
  repeat
    read(x);
    send(right, x)
  until x = 0
end;

procedure buffer(left, right: chan);
var ring: store; first, last, next: integer;
begin
  { The numbers that are held stand from first on, up to and without last. }
  first := 0;
  last := 0;
  repeat
    receive(left, next);
    ring[last] := next;
    last := (last + 1) mod (room + 1)
  until (next = 0) or ((last + 1) mod (room + 1) = first);
  while next <> 0 do
    begin
      parallel
        send(right, ring[first])
      |
        receive(left, next)
      end;
      first := (first + 1) mod (room + 1);
      ring[last] := next;
      last := (last + 1) mod (room + 1)
    end;
  while first <> last do
    begin
      send(right, ring[first]);
      first := (first + 1) mod (room + 1)
    end
end;

procedure consumer(left: chan);
var x: integer;
begin
  receive(left, x);
  while x <> 0 do
    begin
      write(x: 4);
      receive(left, x)
    end;
  writeln
end;

begin
  open(left, right);
  parallel
    producer(left)
  |
    buffer(left, right)
  |
    consumer(right)
  end
end.
