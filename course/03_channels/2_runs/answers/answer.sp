{ Runs of equal chars.
  The encoder reads a line and sends each run of equal chars as one message: a record
  of the char and the length. So both parts come together. A run of length 0 is the
  last message. }
program runs(input, output);
type
  run = record letter: char; length: integer end;
  chan = *(run);
var c: chan;

procedure encoder(c: chan);
var next: run; x: char;
begin
  next.length := 0;
  while not eoln do
    begin
      read(x);
      if next.length = 0 then next.letter := x;
      if x = next.letter then
        next.length := next.length + 1
      else
        begin
          send(c, next);
          next.letter := x;
          next.length := 1
        end
    end;
  if next.length > 0 then send(c, next);
  next.length := 0;
  send(c, next)
end;

procedure printer(c: chan);
var next: run;
begin
  receive(c, next);
  while next.length > 0 do
    begin
      write(next.letter, next.length: 1);
      receive(c, next)
    end;
  writeln
end;

begin
  open(c);
  parallel
    encoder(c)
  |
    printer(c)
  end
end.
