{ A token goes round.
  The nodes stand in a ring, and one number goes from each to the next. A node
  adds to it while it has it, so all change one value, one after another, and no
  two processes ever use one variable. The order is fixed by the channels. }
program ring;
const
  n = 5;
  rounds = 3;
type
  chan = *(integer);
  net = array [0..n] of chan;
var c: net; i, round, token: integer;

procedure node(k: integer; left, right: chan);
var round, token: integer;
begin
  for round := 1 to rounds do
    begin
      receive(left, token);
      send(right, token + k)
    end
end;

begin
  for i := 0 to n do open(c[i]);
  parallel
    begin
      token := 0;
      for round := 1 to rounds do
        begin
          send(c[0], token);
          receive(c[n], token);
          writeln('round ', round: 1, ': ', token: 1)
        end
    end
  |
    forall k := 1 to n do node(k, c[k - 1], c[k])
  end
end.
