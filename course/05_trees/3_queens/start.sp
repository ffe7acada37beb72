{ Queens on a board, counted by one process.
  Let the first two rows be tried by processes. }
program queens(input, output);
const
  most = 8;
type
  board = array [1..most] of integer;
var b: board; n, i, total: integer;

function is_free(b: board; row, column: integer): boolean;
var r: integer; free: boolean;
begin
  free := true;
  for r := 1 to row - 1 do
    if (b[r] = column) or (abs(b[r] - column) = row - r) then free := false;
  is_free := free
end;

function count(b: board; n, row: integer): integer;
var column, sum: integer;
begin
  if row > n then
    sum := 1
  else
    begin
      sum := 0;
      for column := 1 to n do
        if is_free(b, row, column) then
          begin
            b[row] := column;
            sum := sum + count(b, n, row + 1)
          end
    end;
  count := sum
end;

procedure solve(b: board; n: integer; var total: integer);
begin
  total := count(b, n, 1)
end;

begin
  read(n);
  for i := 1 to most do b[i] := 0;
  solve(b, n, total);
  writeln(total)
end.
