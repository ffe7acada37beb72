{ Neighbours in a ring exchange numbers.
  This program ends in a deadlock. Find out why, and mend it. }
program ring(input, output);
const n = 5;
type
  chan = *(integer);
  net = array [1..n] of chan;
  row = array [1..n] of integer;
var links, results: net; numbers: row; rounds, i, x: integer;

procedure node(mine, rounds: integer; left, right, result: chan);
var round, passing, other: integer;
begin
  passing := mine;
  for round := 1 to rounds do
    begin
      send(right, passing);
      receive(left, other);
      mine := mine + other;
      passing := other
    end;
  send(result, mine)
end;

begin
  read(rounds);
  for i := 1 to n do
    begin
      read(numbers[i]);
      open(links[i], results[i])
    end;
  parallel
    forall k := 1 to n do
      node(numbers[k], rounds, links[k], links[k mod n + 1], results[k])
  |
    for i := 1 to n do
      begin
        receive(results[i], x);
        write(x: 5)
      end;
    writeln
  end
end.
