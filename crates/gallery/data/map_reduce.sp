{ Map and reduce: words are counted by their first letters.
  The splitter reads the text and gives its words to the mappers in turn. A
  mapper makes of each word a pair, a letter and the length, and gives it to the
  reducer that has this letter: half of the alphabet each. A reducer hears the
  mappers one after another, each to its end: with one channel for all of them
  the result would be the same, and the verdict race. But a mapper that sent
  its pairs at once would wait for a reducer that hears another mapper, and the
  splitter for that mapper, and the other mapper for the splitter: a deadlock.
  So each mapper adds up its pairs in a table, and sends it when its words have
  ended. That is what a combiner does. }
program map_reduce(input, output);
const mappers = 3; reducers = 2; half = 13; longest = 16;
type
  text = array [1..longest] of char;
  word = record size: integer; letters: text end;
  total = record words, letters, greatest: integer end;
  totals = array [0..25] of total;
  pair = record letter: integer; what: total end;
  words = *(word);
  pairs = *(pair);
  sheets = *(totals);
  inputs = array [1..mappers] of words;
  row = array [1..reducers] of pairs;
  mesh = array [1..mappers] of row;
  outputs = array [1..reducers] of sheets;
var parts: inputs; between: mesh; results: outputs; i, j: integer;

procedure clear(var all: totals);
var k: integer;
begin
  for k := 0 to 25 do begin
    all[k].words := 0;
    all[k].letters := 0;
    all[k].greatest := 0
  end
end;

{ What is added to a letter: words, letters, and the greatest length. }
procedure add(var all: totals; it: pair);
begin
  all[it.letter].words := all[it.letter].words + it.what.words;
  all[it.letter].letters := all[it.letter].letters + it.what.letters;
  if it.what.greatest > all[it.letter].greatest then all[it.letter].greatest := it.what.greatest
end;

{ Words are letters, and all else stands between them. }
procedure split;
var c: char; it: word; next, k: integer;

  procedure pass;
  begin
    if it.size > 0 then begin
      send(parts[next], it);
      next := next mod mappers + 1;
      it.size := 0
    end
  end;

begin
  next := 1;
  it.size := 0;
  while not eof do begin
    read(c);
    if (c >= 'A') and (c <= 'Z') then c := chr(ord(c) + ord('a') - ord('A'));
    if (c >= 'a') and (c <= 'z') then begin
      it.size := it.size + 1;
      if it.size <= longest then it.letters[it.size] := c
    end
    else pass
  end;
  pass;
  { An empty word says that there are no more. }
  for k := 1 to mappers do send(parts[k], it)
end;

procedure map(source: words; sinks: row);
var it: word; k: integer; one: pair; own: totals;
begin
  clear(own);
  receive(source, it);
  while it.size > 0 do begin
    one.letter := ord(it.letters[1]) - ord('a');
    one.what.words := 1;
    one.what.letters := it.size;
    one.what.greatest := it.size;
    add(own, one);
    receive(source, it)
  end;
  for k := 0 to 25 do
    if own[k].words > 0 then begin
      one.letter := k;
      one.what := own[k];
      send(sinks[k div half + 1], one)
    end;
  one.letter := -1;
  for k := 1 to reducers do send(sinks[k], one)
end;

procedure reduce(me: integer; between: mesh; sink: sheets);
var k: integer; it: pair; own: totals;
begin
  clear(own);
  for k := 1 to mappers do begin
    receive(between[k, me], it);
    while it.letter >= 0 do begin
      add(own, it);
      receive(between[k, me], it)
    end
  end;
  send(sink, own)
end;

procedure show;
var r, k, words, letters: integer; own: totals;
begin
  words := 0;
  letters := 0;
  for r := 1 to reducers do begin
    receive(results[r], own);
    for k := 0 to 25 do
      if own[k].words > 0 then begin
        writeln(chr(ord('a') + k), ':', own[k].words: 3, ' words,', own[k].letters: 4, ' letters, ',
          own[k].greatest: 1, ' at most');
        words := words + own[k].words;
        letters := letters + own[k].letters
      end
  end;
  writeln(words: 1, ' words, ', letters: 1, ' letters')
end;

begin
  for i := 1 to mappers do begin
    open(parts[i]);
    for j := 1 to reducers do open(between[i, j])
  end;
  for j := 1 to reducers do open(results[j]);
  parallel
    split
  |
    forall k := 1 to mappers do map(parts[k], between[k])
  |
    forall k := 1 to reducers do reduce(k, between, results[k])
  |
    show
  end
end.
