{ Mistake: there is no server. Each owner changes the balance itself, which parallel
  processes may not do (rule I2). }
program account(input, output);
const
  owners = 3;
  most = 10;
type
  row = array [1..most] of integer;
  table = array [1..owners] of row;
var amounts: table; rounds, balance, i, j: integer;

procedure owner(rounds, k: integer);
var round: integer;
begin
  for round := 1 to rounds do
    if balance + amounts[k, round] >= 0 then
      balance := balance + amounts[k, round]
end;

begin
  read(rounds);
  for j := 1 to rounds do
    for i := 1 to owners do
      read(amounts[i, j]);
  balance := 0;
  forall k := 1 to owners do owner(rounds, k);
  writeln(balance)
end.
