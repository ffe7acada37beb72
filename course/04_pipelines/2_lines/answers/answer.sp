{ Chars become lines, and pairs of chars one.
  The source sends the chars of a text, with a blank for each line end. The squash
  makes one char ^ of two stars. The sink writes lines of a fixed length. The last
  message is the char with number 0, which no text has. }
program lines(input, output);
const width = 10;
type chan = *(char);
var left, right: chan;

procedure source(right: chan);
var x: char;
begin
  while not eof do
    begin
      read(x);
      send(right, x)
    end;
  send(right, chr(0))
end;

procedure squash(left, right: chan);
var x: char;
begin
  receive(left, x);
  while x <> chr(0) do
    begin
      if x = '*' then
        begin
          receive(left, x);
          if x = '*' then
            begin
              send(right, '^');
              receive(left, x)
            end
          else
            send(right, '*')
        end
      else
        begin
          send(right, x);
          receive(left, x)
        end
    end;
  send(right, x)
end;

procedure sink(left: chan);
var x: char; column: integer;
begin
  column := 0;
  receive(left, x);
  while x <> chr(0) do
    begin
      write(x);
      column := column + 1;
      if column = width then
        begin
          writeln;
          column := 0
        end;
      receive(left, x)
    end;
  if column > 0 then writeln
end;

begin
  open(left, right);
  parallel
    source(left)
  |
    squash(left, right)
  |
    sink(right)
  end
end.
