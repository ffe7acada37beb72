{ No deadlock: one breaks the circle.
  Each philosopher owns the fork on his left and borrows the one on his right,
  which is his right neighbour's. If all borrowed before they lent, each would
  wait for the next one, as in philosophers.sp. The last one lends first: so his
  left neighbour eats, gives the fork back and lends his own, and so on round
  the table. A fork goes out and comes back over one channel. Who sends it back
  has received it, and so the two sends are ordered. }
program fed_philosophers;
const n = 3;
type
  fork = *(integer);
  table = array [1..n] of fork;
var forks, reports: table; i, borrowed: integer;

procedure eat(right: fork; var borrowed: integer);
begin
  receive(right, borrowed);
  { Now he has both forks. }
  send(right, borrowed)
end;

procedure lend(left: fork; mine: integer);
var back: integer;
begin
  send(left, mine);
  receive(left, back)
end;

procedure philosopher(k: integer; left, right, report: fork);
var borrowed: integer;
begin
  if k < n then
    begin
      eat(right, borrowed);
      lend(left, k)
    end
  else
    begin
      lend(left, k);
      eat(right, borrowed)
    end;
  send(report, borrowed)
end;

begin
  for i := 1 to n do open(forks[i], reports[i]);
  parallel
    forall k := 1 to n do
      philosopher(k, forks[k], forks[k mod n + 1], reports[k])
  |
    for i := 1 to n do
      begin
        receive(reports[i], borrowed);
        writeln('philosopher ', i: 1, ' has eaten with forks ', i: 1, ' and ', borrowed: 1)
      end
  end
end.
