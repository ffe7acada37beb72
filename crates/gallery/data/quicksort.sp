{ Value parameters keep parallel processes apart.
  Two processes may not sort the two parts of one array: an element counts as
  its whole array, and both would change it (rule I1). So each process gets a
  copy of the array as a value parameter, and puts its part of the result into
  an array of its own, left or right. }
program quicksort(input, output);
const n = 10;
type list = array [1..n] of integer;
var numbers, sorted: list; k: integer;

procedure sort(a: list; low, high: integer; var result: list);
var left, right: list; pivot, i, j, k, x: integer;
begin
  i := low;
  j := high;
  if low < high then
    begin
      { Smaller numbers go before j, greater ones behind i. }
      pivot := a[(low + high) div 2];
      repeat
        while a[i] < pivot do i := i + 1;
        while pivot < a[j] do j := j - 1;
        if i <= j then
          begin
            x := a[i];
            a[i] := a[j];
            a[j] := x;
            i := i + 1;
            j := j - 1
          end
      until i > j;
      parallel
        sort(a, low, j, left)
      |
        sort(a, i, high, right)
      end;
      for k := low to j do result[k] := left[k];
      for k := j + 1 to i - 1 do result[k] := a[k];
      for k := i to high do result[k] := right[k]
    end
  else
    for k := low to high do result[k] := a[k]
end;

begin
  for k := 1 to n do read(numbers[k]);
  sort(numbers, 1, n, sorted);
  for k := 1 to n do write(sorted[k]: 3);
  writeln
end.
