{ A server with two clients: one process owns what many change.
  Two processes may not change one variable. So a third one owns the stock, and
  the others ask it to: each client has a channel for its requests and one for
  the answers. There is no choice among channels, so the server hears its
  clients in turn, and their order does not depend on the schedule. With one
  channel for the requests of both it would (race.sp). }
program server;
const
  clients = 2;
  rounds = 3;
type
  chan = *(integer);
  net = array [1..clients] of chan;
var requests, answers: net; i: integer;

procedure serve;
var round, k, amount, stock: integer;
begin
  stock := 10;
  for round := 1 to rounds do
    for k := 1 to clients do
      begin
        receive(requests[k], amount);
        stock := stock + amount;
        send(answers[k], stock);
        writeln('client ', k: 1, amount: 4, stock: 4)
      end
end;

procedure client(amount: integer; request, answer: chan);
var round, stock: integer;
begin
  for round := 1 to rounds do
    begin
      send(request, amount);
      receive(answer, stock);
      { The more there is, the more is brought or taken. }
      amount := amount + amount * stock div 10
    end
end;

begin
  for i := 1 to clients do open(requests[i], answers[i]);
  parallel
    serve
  |
    client(5, requests[1], answers[1])
  |
    client(-3, requests[2], answers[2])
  end
end.
