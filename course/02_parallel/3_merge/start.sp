{ Sorting by merging, with processes that start processes.
  merge is right. Write sort: it copies each half, lets a process sort it, and
  merges both. }
program merge_sort(input, output);
const most = 32;
type row = array [1..most] of integer;
var a: row; n, i: integer;

procedure merge(left, right: row; m, n: integer; var a: row);
var i, j, k: integer; from_left: boolean;
begin
  i := 1;
  j := 1;
  for k := 1 to m + n do
    begin
      if i > m then
        from_left := false
      else if j > n then
        from_left := true
      else
        from_left := left[i] <= right[j];
      if from_left then
        begin
          a[k] := left[i];
          i := i + 1
        end
      else
        begin
          a[k] := right[j];
          j := j + 1
        end
    end
end;

procedure sort(var a: row; n: integer);
var left, right: row;
begin
  left := a;
  right := a;
  merge(left, right, n, 0, a)
end;

begin
  read(n);
  for i := 1 to n do read(a[i]);
  sort(a, n);
  for i := 1 to n do write(a[i]: 5);
  writeln
end.
