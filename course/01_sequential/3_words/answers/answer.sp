{ Letters, words and lines of a text.
  The text is read line by line, each line char by char up to eoln. A word is a
  longest row of letters, so it is counted at its first letter: the char before it
  is no letter. }
program words(input, output);
var letters, words, lines: integer; c: char; inside: boolean;

function is_letter(c: char): boolean;
begin
  is_letter := (c >= 'a') and (c <= 'z') or (c >= 'A') and (c <= 'Z')
end;

begin
  letters := 0;
  words := 0;
  lines := 0;
  while not eof do
    begin
      inside := false;
      while not eoln do
        begin
          read(c);
          if is_letter(c) then
            begin
              letters := letters + 1;
              if not inside then words := words + 1
            end;
          inside := is_letter(c)
        end;
      readln;
      lines := lines + 1
    end;
  writeln(letters: 1, ' letters, ', words: 1, ' words, ', lines: 1, ' lines')
end.
