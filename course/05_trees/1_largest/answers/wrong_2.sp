{ Mistake: only the halves are compared: a best row that lies over the middle is not found. }
program largest(input, output);
const most = 64;
type
  row = array [1..most] of integer;
  part = record sum, left, right, best: integer end;
var a: row; n, i: integer; all: part;

function max(x, y: integer): integer;
begin
  if x > y then max := x else max := y
end;

procedure find(a: row; low, high: integer; var result: part);
var middle: integer; p, q: part;
begin
  if low = high then
    begin
      result.sum := a[low];
      result.left := a[low];
      result.right := a[low];
      result.best := a[low]
    end
  else
    begin
      middle := (low + high) div 2;
      parallel
        find(a, low, middle, p)
      |
        find(a, middle + 1, high, q)
      end;
      result.sum := p.sum + q.sum;
      result.left := max(p.left, p.sum + q.left);
      result.right := max(q.right, q.sum + p.right);
      result.best := max(p.best, q.best)
    end
end;

begin
  read(n);
  for i := 1 to most do
    if i <= n then read(a[i]) else a[i] := 0;
  find(a, 1, n, all);
  writeln(all.best)
end.
