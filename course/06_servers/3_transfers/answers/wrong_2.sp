{ Mistake: the client sends the cell before the kind of its request. The channel takes
  both types, but the server expects the kind (fault F7). }
program transfers(input, output);
const
  cells = 5;
  clients = 3;
  most = 20;
type
  kind = (get, put, release);
  line = *(kind, integer);
  lines = array [1..clients] of line;
  move = record source, goal, amount: integer end;
  moves = array [1..most] of move;
  plans = array [1..clients] of moves;
  table = array [1..cells] of integer;
var desk: lines; plan: plans; rounds, i, j: integer;

procedure serve(rounds: integer);
var store: table; round, k, cell: integer; request: kind;
begin
  for cell := 1 to cells do store[cell] := 100;
  for round := 1 to rounds do
    for k := 1 to clients do
      begin
        receive(desk[k], request);
        while request <> release do
          begin
            receive(desk[k], cell);
            if request = get then
              send(desk[k], store[cell])
            else
              receive(desk[k], store[cell]);
            receive(desk[k], request)
          end
      end;
  for cell := 1 to cells do writeln('cell ', cell: 1, store[cell]: 5)
end;

procedure read_cell(desk: line; cell: integer; var value: integer);
begin
  send(desk, cell);
  send(desk, get);
  receive(desk, value)
end;

procedure write_cell(desk: line; cell, value: integer);
begin
  send(desk, put);
  send(desk, cell);
  send(desk, value)
end;

procedure transfer(desk: line; m: move);
var a, b: integer;
begin
  read_cell(desk, m.source, a);
  write_cell(desk, m.source, a - m.amount);
  read_cell(desk, m.goal, b);
  write_cell(desk, m.goal, b + m.amount);
  send(desk, release)
end;

procedure client(rounds: integer; mine: moves; desk: line);
var i: integer;
begin
  for i := 1 to rounds do transfer(desk, mine[i])
end;

begin
  read(rounds);
  for j := 1 to rounds do
    for i := 1 to clients do
      read(plan[i, j].source, plan[i, j].goal, plan[i, j].amount);
  for i := 1 to clients do open(desk[i]);
  parallel
    serve(rounds)
  |
    forall k := 1 to clients do client(rounds, plan[k], desk[k])
  end
end.
