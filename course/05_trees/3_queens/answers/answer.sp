{ Queens on a board, counted in parallel.
  No two queens may be in one column or on one diagonal. Each way to place the first
  queens is a process of its own. From the third row on a process counts by itself:
  so there are some tens of processes, and not thousands. Each process has a copy
  of the board, and sends its number on a channel that its parent opened. }
program queens(input, output);
const
  most = 8;
  rows = 2;
type
  chan = *(integer);
  net = array [1..most] of chan;
  board = array [1..most] of integer;
var b: board; n, i, total: integer;

function is_free(b: board; row, column: integer): boolean;
var r: integer; free: boolean;
begin
  free := true;
  for r := 1 to row - 1 do
    if (b[r] = column) or (abs(b[r] - column) = row - r) then free := false;
  is_free := free
end;

function count(b: board; n, row: integer): integer;
var column, sum: integer;
begin
  if row > n then
    sum := 1
  else
    begin
      sum := 0;
      for column := 1 to n do
        if is_free(b, row, column) then
          begin
            b[row] := column;
            sum := sum + count(b, n, row + 1)
          end
    end;
  count := sum
end;

procedure search(b: board; n, row: integer; result: chan);
var c: net; k, x, sum: integer;

  procedure place(b: board; column: integer; answer: chan);
  begin
    if is_free(b, row, column) then
      begin
        b[row] := column;
        search(b, n, row + 1, answer)
      end
    else
      send(answer, 0)
  end;

begin
  if (row > rows) or (row > n) then
    send(result, count(b, n, row))
  else
    begin
      for k := 1 to n do open(c[k]);
      sum := 0;
      parallel
        forall column := 1 to n do place(b, column, c[column])
      |
        for k := 1 to n do
          begin
            receive(c[k], x);
            sum := sum + x
          end
      end;
      send(result, sum)
    end
end;

procedure solve(b: board; n: integer; var total: integer);
var c: chan;
begin
  open(c);
  parallel
    search(b, n, 1, c)
  |
    receive(c, total)
  end
end;

begin
  read(n);
  for i := 1 to most do b[i] := 0;
  solve(b, n, total);
  writeln(total)
end.
