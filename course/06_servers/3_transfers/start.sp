{ A server with several kinds of requests.
  This server answers one request of each client in a round, and only `get`. Let
  it hear a client until that one releases the table, and let the clients move
  the amounts. }
program transfers(input, output);
const
  cells = 5;
  clients = 3;
  most = 20;
type
  kind = (get, put, release);
  line = *(kind, integer);
  lines = array [1..clients] of line;
  move = record source, goal, amount: integer end;
  moves = array [1..most] of move;
  plans = array [1..clients] of moves;
  table = array [1..cells] of integer;
var desk: lines; plan: plans; rounds, i, j: integer;

procedure serve(rounds: integer);
var store: table; round, k, cell: integer; request: kind;
begin
  for cell := 1 to cells do store[cell] := 100;
  for round := 1 to rounds do
    for k := 1 to clients do
      begin
        receive(desk[k], request);
        receive(desk[k], cell);
        send(desk[k], store[cell])
      end;
  for cell := 1 to cells do writeln('cell ', cell: 1, store[cell]: 5)
end;

procedure read_cell(desk: line; cell: integer; var value: integer);
begin
  send(desk, get);
  send(desk, cell);
  receive(desk, value)
end;

procedure write_cell(desk: line; cell, value: integer);
begin
  send(desk, put);
  send(desk, cell);
  send(desk, value)
end;

procedure transfer(desk: line; m: move);
var a: integer;
begin
  read_cell(desk, m.source, a)
end;

procedure client(rounds: integer; mine: moves; desk: line);
var i: integer;
begin
  for i := 1 to rounds do transfer(desk, mine[i])
end;

begin
  read(rounds);
  for j := 1 to rounds do
    for i := 1 to clients do
      read(plan[i, j].source, plan[i, j].goal, plan[i, j].amount);
  for i := 1 to clients do open(desk[i]);
  parallel
    serve(rounds)
  |
    forall k := 1 to clients do client(rounds, plan[k], desk[k])
  end
end.
