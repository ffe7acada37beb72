{ Mistake: the two parts are sent one after the other, the length first. The printer expects
  the letter first (fault F7). }
program runs(input, output);
type
  run = record letter: char; length: integer end;
  chan = *(char, integer);
var c: chan;

procedure encoder(c: chan);
var next: run; x: char;
begin
  next.length := 0;
  while not eoln do
    begin
      read(x);
      if next.length = 0 then next.letter := x;
      if x = next.letter then
        next.length := next.length + 1
      else
        begin
          send(c, next.length);
          send(c, next.letter);
          next.letter := x;
          next.length := 1
        end
    end;
  if next.length > 0 then
    begin
      send(c, next.length);
      send(c, next.letter)
    end;
  send(c, 0);
  send(c, ' ')
end;

procedure printer(c: chan);
var next: run;
begin
  receive(c, next.letter, next.length);
  while next.length > 0 do
    begin
      write(next.letter, next.length: 1);
      receive(c, next.letter, next.length)
    end;
  writeln
end;

begin
  open(c);
  parallel
    encoder(c)
  |
    printer(c)
  end
end.
