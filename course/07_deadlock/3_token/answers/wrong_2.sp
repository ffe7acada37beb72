{ Mistake: two nodes make a token. Node 2 waits to send its token while node 1 waits to send to
  node 2, and so on round the ring (deadlock). }
program token(input, output);
const n = 4;
type
  chan = *(integer);
  net = array [1..n] of chan;
  row = array [1..n] of integer;
var links: net; numbers: row; rounds, i: integer;

procedure first(mine, rounds: integer; left, right: chan);
var round, token: integer;
begin
  token := 0;
  for round := 1 to rounds do
    begin
      send(right, token + mine);
      receive(left, token);
      writeln('round', round: 3, ':', token: 6)
    end
end;

procedure node(mine, rounds: integer; left, right: chan);
var round, token: integer;
begin
  for round := 1 to rounds do
    begin
      receive(left, token);
      send(right, token + mine)
    end
end;

begin
  read(rounds);
  for i := 1 to n do
    begin
      read(numbers[i]);
      open(links[i])
    end;
  parallel
    first(numbers[1], rounds, links[1], links[2])
  |
    forall k := 2 to n do
      begin
        send(links[k mod n + 1], numbers[k]);
        node(numbers[k], rounds, links[k], links[k mod n + 1])
      end
  end
end.
