{ Mistake: the program reads a char before it asks for the end of the line. In an empty
  line that char is the end of the line itself, so the line is not counted. }
program words(input, output);
var letters, words, lines: integer; c: char; inside: boolean;

function is_letter(c: char): boolean;
begin
  is_letter := (c >= 'a') and (c <= 'z') or (c >= 'A') and (c <= 'Z')
end;

begin
  letters := 0;
  words := 0;
  lines := 0;
  while not eof do
    begin
      inside := false;
      repeat
          read(c);
          if is_letter(c) then
            begin
              letters := letters + 1;
              if not inside then words := words + 1
            end;
          inside := is_letter(c)
      until eoln;
      readln;
      lines := lines + 1
    end;
  writeln(letters: 1, ' letters, ', words: 1, ' words, ', lines: 1, ' lines')
end.
