{ A channel names the types of its messages.
  Before each char goes a boolean that says whether a char comes: true and the
  char, and at last false. A receive of another type than that of the message
  would be the fault F7. The cells between producer and consumer are a buffer:
  the producer may be as many chars ahead as there are cells. }
program buffer(input, output);
const cells = 3;
type
  chan = *(boolean, char);
  net = array [0..cells] of chan;
var c: net; i: integer;

procedure producer(right: chan);
var ch: char;
begin
  while not eoln do
    begin
      read(ch);
      send(right, true);
      send(right, ch)
    end;
  send(right, false)
end;

procedure cell(left, right: chan);
var more: boolean; ch: char;
begin
  receive(left, more);
  while more do
    begin
      receive(left, ch);
      send(right, true);
      send(right, ch);
      receive(left, more)
    end;
  send(right, false)
end;

function capital(ch: char): char;
begin
  if ('a' <= ch) and (ch <= 'z') then
    capital := chr(ord(ch) - ord('a') + ord('A'))
  else
    capital := ch
end;

procedure consumer(left: chan);
var more: boolean; ch: char;
begin
  receive(left, more);
  while more do
    begin
      receive(left, ch);
      write(capital(ch));
      receive(left, more)
    end;
  writeln
end;

begin
  for i := 0 to cells do open(c[i]);
  parallel
    producer(c[0])
  |
    forall k := 1 to cells do cell(c[k - 1], c[k])
  |
    consumer(c[cells])
  end
end.
