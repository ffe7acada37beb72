{ Recursion with processes.
  A procedure may start processes that call it again. Each process here adds
  one half of its part of the row and gives the sum to its own variable a or b,
  so no process changes what a parallel one uses. The parent goes on when both
  have ended, and may then use both sums. A procedure that calls itself may use
  no variable from around it (rule I6): the row comes as a value parameter. }
program sum_tree(input, output);
const n = 8;
type row = array [1..n] of integer;
var numbers: row; i, total: integer;

procedure sum(numbers: row; low, high: integer; var result: integer);
var middle, a, b: integer;
begin
  if low = high then
    result := numbers[low]
  else
    begin
      middle := (low + high) div 2;
      parallel
        sum(numbers, low, middle, a)
      |
        sum(numbers, middle + 1, high, b)
      end;
      result := a + b
    end
end;

begin
  for i := 1 to n do read(numbers[i]);
  sum(numbers, 1, n, total);
  writeln(total)
end.
