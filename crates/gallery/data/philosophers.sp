{ A deadlock: everyone waits for the next one.
  A fork lies between any two neighbours at a round table. Each philosopher
  begins with the fork on his left and needs the one on his right, which his
  right neighbour sends him after eating. All begin by waiting, so nobody eats.
  The end names who waits on which channel, and the verdict ordered says that
  every schedule ends so. If one philosopher sent his fork before he waited for
  another, the others would eat, one after another. }
program philosophers;
const n = 3;
type
  fork = *(integer);
  table = array [1..n] of fork;
var forks: table; i: integer;

procedure philosopher(k: integer; left, right: fork);
var borrowed: integer;
begin
  receive(right, borrowed);
  { Now he has both forks, and eats. }
  send(left, k)
end;

begin
  for i := 1 to n do open(forks[i]);
  forall k := 1 to n do
    philosopher(k, forks[k], forks[k mod n + 1])
end.
