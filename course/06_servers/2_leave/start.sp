{ Clients that leave at different times.
  This server gives one ticket to each client and ends. Let each client take as
  many tickets as it wants. }
program leave(input, output);
const clients = 4;
type
  line = *(boolean, integer);
  lines = array [1..clients] of line;
  counts = array [1..clients] of integer;
var desk: lines; wanted: counts; i: integer;

procedure serve;
var k: integer; more: boolean;
begin
  for k := 1 to clients do
    begin
      receive(desk[k], more);
      send(desk[k], k);
      writeln('client ', k: 1, ' gets', k: 3)
    end
end;

procedure client(wanted: integer; desk: line);
var ticket: integer;
begin
  send(desk, true);
  receive(desk, ticket)
end;

begin
  for i := 1 to clients do
    begin
      read(wanted[i]);
      open(desk[i])
    end;
  parallel
    serve
  |
    forall k := 1 to clients do client(wanted[k], desk[k])
  end
end.
