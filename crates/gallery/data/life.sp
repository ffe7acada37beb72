{ Life on a torus, by strips: neighbours exchange their borders.
  A cell lives on with two or three living neighbours, and is born with three.
  The board is cut into strips of rows, one for each process. The cells in the
  inner rows of a strip need nothing from outside; those of its first and last
  row need one row of the strip above and one of the strip below. So in each
  generation a strip sends its two border rows and takes two, all at once: four
  process statements, each with variables of its own, since an array counts as
  a whole and two of them may not share one. }
program life(input, output);
const width = 16; strips = 4; high = 3; rows = 12; generations = 12; shown = 4;
type
  line = array [1..width] of boolean;
  board = array [1..rows] of line;
  strip = array [1..high] of line;
  chan = *(line);
  net = array [1..strips] of chan;
var
  cells: board;
  downs, ups, results: net;
  i: integer;

procedure read_board;
var i, j: integer; c: char;
begin
  for i := 1 to rows do begin
    for j := 1 to width do begin
      read(c);
      cells[i, j] := c = '*'
    end;
    readln
  end
end;

procedure live(me: integer; cells: board; fromabove, toabove, frombelow, tobelow, result: chan);
var
  mine, next: strip;
  above, below, first, last: line;
  t, i, j: integer;

  { How many of the three cells around column j of a row live. }
  function around(row: line; j: integer): integer;
  begin
    around := ord(row[(j + width - 2) mod width + 1]) + ord(row[j]) + ord(row[j mod width + 1])
  end;

  procedure step(upper, row, lower: line; var new: line);
  var j, living: integer;
  begin
    for j := 1 to width do begin
      living := around(upper, j) + around(row, j) + around(lower, j) - ord(row[j]);
      new[j] := (living = 3) or row[j] and (living = 2)
    end
  end;

  procedure tell;
  var i: integer;
  begin
    for i := 1 to high do send(result, mine[i])
  end;

begin
  for i := 1 to high do mine[i] := cells[high * (me - 1) + i];
  tell;
  for t := 1 to generations do begin
    first := mine[1];
    last := mine[high];
    parallel
      send(toabove, first)
    |
      send(tobelow, last)
    |
      receive(fromabove, above)
    |
      receive(frombelow, below)
    end;
    for i := 1 to high do begin
      if i > 1 then above := mine[i - 1];
      if i < high then step(above, mine[i], mine[i + 1], next[i])
      else step(above, mine[i], below, next[i])
    end;
    mine := next;
    if t mod shown = 0 then tell
  end
end;

procedure show;
var t, s, i, j, living: integer; row: line;
begin
  for t := 0 to generations div shown do begin
    living := 0;
    for s := 1 to strips do
      for i := 1 to high do begin
        receive(results[s], row);
        for j := 1 to width do
          if row[j] then begin
            write('*');
            living := living + 1
          end
          else write('.');
        writeln
      end;
    writeln('generation ', shown * t: 1, ', ', living: 1, ' cells')
  end
end;

begin
  read_board;
  for i := 1 to strips do open(downs[i], ups[i], results[i]);
  { downs[k] leads from strip k down to the next one, ups[k] from strip k up. }
  parallel
    forall k := 1 to strips do
      live(k, cells, downs[(k + strips - 2) mod strips + 1], ups[k], ups[k mod strips + 1], downs[k], results[k])
  |
    show
  end
end.
