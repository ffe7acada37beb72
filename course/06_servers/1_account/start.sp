{ An account that belongs to one process.
  This server hears owner 1 alone, and grants everything. Let it hear all
  owners in turn, and refuse what the balance does not allow. }
program account(input, output);
const
  owners = 3;
  most = 10;
type
  line = *(integer, boolean);
  lines = array [1..owners] of line;
  chan = *(integer);
  reports = array [1..owners] of chan;
  row = array [1..most] of integer;
  table = array [1..owners] of row;
  counts = array [1..owners] of integer;
var
  desk: lines;
  report: reports;
  amounts: table;
  cash: counts;
  rounds, i, j: integer;

procedure serve(rounds: integer);
var round, amount, balance: integer;
begin
  balance := 0;
  for round := 1 to rounds do
    begin
      receive(desk[1], amount);
      balance := balance + amount;
      send(desk[1], true);
      writeln('owner ', 1: 1, amount: 5, true: 6, balance: 5)
    end
end;

procedure owner(rounds: integer; mine: row; desk: line; report: chan);
var round, cash: integer; granted: boolean;
begin
  cash := 100;
  for round := 1 to rounds do
    begin
      send(desk, mine[round]);
      receive(desk, granted);
      if granted then cash := cash - mine[round]
    end;
  send(report, cash)
end;

begin
  read(rounds);
  for j := 1 to rounds do
    for i := 1 to owners do
      read(amounts[i, j]);
  for i := 1 to owners do open(desk[i], report[i]);
  parallel
    serve(rounds)
  |
    owner(rounds, amounts[1], desk[1], report[1])
  |
    receive(report[1], cash[1])
  end;
  writeln('owner ', 1: 1, ' has', cash[1]: 4)
end.
