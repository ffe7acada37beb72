{ Chars become lines, and pairs of chars one.
  Here the source and the sink are right, and no process is between them. Add the
  squash. }
program lines(input, output);
const width = 10;
type chan = *(char);
var left: chan;

procedure source(right: chan);
var x: char;
begin
  while not eof do
    begin
      read(x);
      send(right, x)
    end;
  send(right, chr(0))
end;

procedure sink(left: chan);
var x: char; column: integer;
begin
  column := 0;
  receive(left, x);
  while x <> chr(0) do
    begin
      write(x);
      column := column + 1;
      if column = width then
        begin
          writeln;
          column := 0
        end;
      receive(left, x)
    end;
  if column > 0 then writeln
end;

begin
  open(left);
  parallel
    source(left)
  |
    sink(left)
  end
end.
