{ Letters, words and lines of a text.
  This program counts the letters of the first line. Let it count letters, words
  and lines of the whole text. }
program words(input, output);
var letters, words, lines: integer; c: char;

function is_letter(c: char): boolean;
begin
  is_letter := (c >= 'a') and (c <= 'z') or (c >= 'A') and (c <= 'Z')
end;

begin
  letters := 0;
  words := 0;
  lines := 0;
  while not eoln do
    begin
      read(c);
      if is_letter(c) then letters := letters + 1
    end;
  writeln(letters: 1, ' letters, ', words: 1, ' words, ', lines: 1, ' lines')
end.
