{ Mistake: each two voters share a channel. There is less contention, but it is a race all the
  same. }
program votes(input, output);
const most = 12;
type
  chan = *(integer);
  net = array [1..most] of chan;
  row = array [1..most] of integer;
var c: net; opinions: row; n, i, vote, yes, no: integer;

procedure voter(opinion: integer; c: chan);
begin
  if opinion > 0 then send(c, 1) else send(c, 0)
end;

begin
  read(n);
  for i := 1 to n do
    begin
      read(opinions[i]);
      open(c[i])
    end;
  yes := 0;
  no := 0;
  parallel
    forall k := 1 to n do voter(opinions[k], c[(k + 1) div 2])
  |
    for i := 1 to n do
      begin
        receive(c[(i + 1) div 2], vote);
        if vote = 1 then yes := yes + 1 else no := no + 1
      end
  end;
  writeln(yes: 1, ' yes, ', no: 1, ' no')
end.
