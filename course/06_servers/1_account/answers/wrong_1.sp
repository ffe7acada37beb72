{ Mistake: all owners use one channel. Who sends first is not determined, and two
  owners may send at once (fault F6). }
program account(input, output);
const
  owners = 3;
  most = 10;
type
  line = *(integer, boolean);
  lines = array [1..owners] of line;
  chan = *(integer);
  reports = array [1..owners] of chan;
  row = array [1..most] of integer;
  table = array [1..owners] of row;
  counts = array [1..owners] of integer;
var
  desk: lines;
  report: reports;
  amounts: table;
  cash: counts;
  rounds, i, j: integer;

procedure serve(rounds: integer);
var round, k, amount, balance: integer; granted: boolean;
begin
  balance := 0;
  for round := 1 to rounds do
    for k := 1 to owners do
      begin
        receive(desk[1], amount);
        granted := balance + amount >= 0;
        if granted then balance := balance + amount;
        send(desk[1], granted);
        writeln('owner ', k: 1, amount: 5, granted: 6, balance: 5)
      end
end;

procedure owner(rounds: integer; mine: row; desk: line; report: chan);
var round, cash: integer; granted: boolean;
begin
  cash := 100;
  for round := 1 to rounds do
    begin
      send(desk, mine[round]);
      receive(desk, granted);
      if granted then cash := cash - mine[round]
    end;
  send(report, cash)
end;

begin
  read(rounds);
  for j := 1 to rounds do
    for i := 1 to owners do
      read(amounts[i, j]);
  for i := 1 to owners do open(desk[i], report[i]);
  parallel
    serve(rounds)
  |
    forall k := 1 to owners do
      owner(rounds, amounts[k], desk[1], report[k])
  |
    for i := 1 to owners do receive(report[i], cash[i])
  end;
  for i := 1 to owners do writeln('owner ', i: 1, ' has', cash[i]: 4)
end.
