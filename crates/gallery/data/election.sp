{ An election on a ring: nodes that agree without anybody above them.
  Each node has a number and knows its neighbours alone. Numbers go round: a
  node passes on a greater one than its own and drops a smaller one. So only the
  greatest comes back to its own node, which is elected and sends the news
  round. A message is a record: a number, and whether it is elected. Nodes all
  alike wait for each other in a circle; here the node with the greatest number
  drops what the others send, so one of them can always go on. }
program election;
const n = 5;
type
  news = record elected: boolean; who: integer end;
  chan = *(news);
  net = array [1..n] of chan;
  answer = *(integer);
  answers = array [1..n] of answer;
var c: net; results: answers; i, leader: integer;

procedure node(mine: integer; left, right: chan; result: answer);
var first, heard: news; over: boolean;
begin
  first.elected := false;
  first.who := mine;
  parallel
    send(right, first)
  |
    receive(left, heard)
  end;
  over := false;
  while not over do
    if heard.elected then
      begin
        { The news ends where it began. }
        if heard.who <> mine then send(right, heard);
        over := true
      end
    else
      begin
        if heard.who = mine then heard.elected := true;
        if heard.who >= mine then send(right, heard);
        receive(left, heard)
      end;
  send(result, heard.who)
end;

begin
  for i := 1 to n do open(c[i], results[i]);
  parallel
    forall k := 1 to n do
      node(7 * k mod 11, c[k], c[k mod n + 1], results[k])
  |
    for i := 1 to n do
      begin
        receive(results[i], leader);
        writeln('node ', 7 * i mod 11: 2, ' elects ', leader: 1)
      end
  end
end.
