{ A token goes round a ring, and everybody ends.
  Node 1 makes the token and takes it back at the end of each round, so it is not
  lost. The other nodes add their number and pass it on. All count the rounds. }
program token(input, output);
const n = 4;
type
  chan = *(integer);
  net = array [1..n] of chan;
  row = array [1..n] of integer;
var links: net; numbers: row; rounds, i: integer;

procedure first(mine, rounds: integer; left, right: chan);
var round, token: integer;
begin
  token := 0;
  for round := 1 to rounds do
    begin
      send(right, token + mine);
      receive(left, token);
      writeln('round', round: 3, ':', token: 6)
    end
end;

procedure node(mine, rounds: integer; left, right: chan);
var round, token: integer;
begin
  for round := 1 to rounds do
    begin
      receive(left, token);
      send(right, token + mine)
    end
end;

begin
  read(rounds);
  for i := 1 to n do
    begin
      read(numbers[i]);
      open(links[i])
    end;
  parallel
    first(numbers[1], rounds, links[1], links[2])
  |
    forall k := 2 to n do
      node(numbers[k], rounds, links[k], links[k mod n + 1])
  end
end.
