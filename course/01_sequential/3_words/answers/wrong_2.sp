{ Mistake: without readln the end of the line is never passed. The loop never ends: each
  turn of a loop is a tick, and the ticks of a process are limited (fault F10). }
program words(input, output);
var letters, words, lines: integer; c: char; inside: boolean;

function is_letter(c: char): boolean;
begin
  is_letter := (c >= 'a') and (c <= 'z') or (c >= 'A') and (c <= 'Z')
end;

begin
  letters := 0;
  words := 0;
  lines := 0;
  while not eof do
    begin
      inside := false;
      while not eoln do
        begin
          read(c);
          if is_letter(c) then
            begin
              letters := letters + 1;
              if not inside then words := words + 1
            end;
          inside := is_letter(c)
        end;
      lines := lines + 1
    end;
  writeln(letters: 1, ' letters, ', words: 1, ' words, ', lines: 1, ' lines')
end.
