{ A bank: only the owner of an account changes it.
  Each branch is a process with accounts of its own. Customers send it orders,
  one after another, and hear whether there was enough money. What goes to
  another branch is collected, and at the end of a round any two branches
  exchange what they have for each other: in a fixed order of pairs, both ways
  at once, so that no two wait for each other. The auditor hears how much money
  each branch has. The sum never changes, although nobody ever stops the bank
  to count. }
program bank;
const branches = 3; accounts = 4; rounds = 5;
type
  order = record source, branch, account, amount: integer end;
  slots = array [1..accounts] of order;
  batch = record many: integer; items: slots end;
  batches = array [1..branches] of batch;
  balances = array [1..accounts] of integer;
  orders = *(order);
  answers = *(boolean);
  reports = *(integer, balances);
  wire = *(batch);
  wires = array [1..branches] of wire;
  mesh = array [1..branches] of wires;
  asking = array [1..branches] of orders;
  answering = array [1..branches] of answers;
  desks = array [1..branches] of reports;
var
  between: mesh;
  asked: asking;
  answered: answering;
  kept, refusals: desks;
  i, j: integer;

{ A customer of the branch home orders from each account in each round. }
procedure customer(home: integer; ask: orders; answer: answers; result: reports);
var round, k, refused: integer; what: order; accepted: boolean;
begin
  refused := 0;
  for round := 1 to rounds do
    for k := 1 to accounts do begin
      what.source := k;
      what.branch := (k + round + home) mod branches + 1;
      what.account := k * round mod accounts + 1;
      what.amount := (37 * round + 11 * k + 53 * home) mod 90 + 20;
      send(ask, what);
      receive(answer, accepted);
      if not accepted then refused := refused + 1
    end;
  send(result, refused)
end;

procedure branch(home: integer; ask: orders; answer: answers; between: mesh; result: reports);
var
  round, k, partner: integer;
  balance: balances;
  what: order;
  leaving: batches;
  coming: batch;

  { Money within the branch moves at once, other money with the next batch. }
  procedure move(what: order);
  var many: integer;
  begin
    balance[what.source] := balance[what.source] - what.amount;
    if what.branch = home then
      balance[what.account] := balance[what.account] + what.amount
    else begin
      many := leaving[what.branch].many + 1;
      leaving[what.branch].items[many] := what;
      leaving[what.branch].many := many
    end
  end;

  procedure serve;
  var k: integer;
  begin
    for k := 1 to accounts do begin
      receive(ask, what);
      if what.amount <= balance[what.source] then begin
        move(what);
        send(answer, true)
      end
      else send(answer, false)
    end
  end;

  procedure report;
  var k, sum: integer;
  begin
    sum := 0;
    for k := 1 to accounts do sum := sum + balance[k];
    send(result, sum)
  end;

begin
  for k := 1 to accounts do balance[k] := 30 * home + 10 * k;
  for round := 1 to rounds do begin
    for partner := 1 to branches do leaving[partner].many := 0;
    serve;
    for partner := 1 to branches do
      if partner <> home then begin
        parallel
          send(between[home, partner], leaving[partner])
        |
          receive(between[partner, home], coming)
        end;
        for k := 1 to coming.many do
          balance[coming.items[k].account] := balance[coming.items[k].account] + coming.items[k].amount
      end;
    report
  end;
  send(result, balance)
end;

procedure audit;
var round, k, a, sum, all, refused: integer; last: balances;
begin
  writeln('round  branches       together');
  for round := 1 to rounds do begin
    write(round: 5);
    all := 0;
    for k := 1 to branches do begin
      receive(kept[k], sum);
      write(sum: 5);
      all := all + sum
    end;
    writeln(all: 8)
  end;
  for k := 1 to branches do begin
    receive(kept[k], last);
    receive(refusals[k], refused);
    write('branch ', k: 1, ':');
    for a := 1 to accounts do write(last[a]: 5);
    writeln(', refused ', refused: 1)
  end
end;

begin
  for i := 1 to branches do begin
    open(asked[i], answered[i], kept[i], refusals[i]);
    for j := 1 to branches do open(between[i, j])
  end;
  parallel
    forall b := 1 to branches do branch(b, asked[b], answered[b], between, kept[b])
  |
    forall b := 1 to branches do customer(b, asked[b], answered[b], refusals[b])
  |
    audit
  end
end.
