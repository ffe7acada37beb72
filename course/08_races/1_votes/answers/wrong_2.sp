{ Mistake: the voters vote one after the other, in a loop. There is no race, and no voter works
  at the same time as another one. }
program votes(input, output);
var n, i, opinion, yes, no: integer;
begin
  read(n);
  yes := 0;
  no := 0;
  for i := 1 to n do
    begin
      read(opinion);
      if opinion > 0 then yes := yes + 1 else no := no + 1
    end;
  writeln(yes: 1, ' yes, ', no: 1, ' no')
end.
