{ Runs of equal chars.
  This encoder sends each char as a run of length 1. Let it send runs. }
program runs(input, output);
type
  run = record letter: char; length: integer end;
  chan = *(run);
var c: chan;

procedure encoder(c: chan);
var next: run; x: char;
begin
  while not eoln do
    begin
      read(x);
      next.letter := x;
      next.length := 1;
      send(c, next)
    end;
  next.length := 0;
  send(c, next)
end;

procedure printer(c: chan);
var next: run;
begin
  receive(c, next);
  while next.length > 0 do
    begin
      write(next.letter, next.length: 1);
      receive(c, next)
    end;
  writeln
end;

begin
  open(c);
  parallel
    encoder(c)
  |
    printer(c)
  end
end.
