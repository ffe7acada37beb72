{ A master that is ahead of its worker.
  The worker answers each number at once. If the master first sent all numbers and
  then received the answers, it would wait to send the second one while the worker
  waits to send the first answer. So two processes of the master do both at once. }
program squares(input, output);
const most = 20;
type
  chan = *(integer);
  row = array [1..most] of integer;
var tasks, answers: chan; numbers: row; n, i: integer;

procedure worker(count: integer; tasks, answers: chan);
var i, x: integer;
begin
  for i := 1 to count do
    begin
      receive(tasks, x);
      send(answers, x * x)
    end
end;

procedure deal(count: integer; numbers: row; tasks: chan);
var i: integer;
begin
  for i := 1 to count do send(tasks, numbers[i])
end;

procedure collect(count: integer; answers: chan);
var i, x: integer;
begin
  for i := 1 to count do
    begin
      receive(answers, x);
      write(x: 6)
    end;
  writeln
end;

begin
  read(n);
  for i := 1 to n do read(numbers[i]);
  open(tasks, answers);
  parallel
    worker(n, tasks, answers)
  |
    deal(n, numbers, tasks)
  |
    collect(n, answers)
  end
end.
