{ Mistake: the server hears one client until it leaves, and then the next one. The
  clients are not heard in turn, so the tickets are others. }
program leave(input, output);
const clients = 4;
type
  line = *(boolean, integer);
  lines = array [1..clients] of line;
  flags = array [1..clients] of boolean;
  counts = array [1..clients] of integer;
var desk: lines; wanted: counts; i: integer;

procedure serve;
var here: flags; k, left, ticket: integer; more: boolean;
begin
  for k := 1 to clients do here[k] := true;
  left := clients;
  ticket := 0;
  for k := 1 to clients do
    while here[k] do
      begin
          receive(desk[k], more);
          if more then
            begin
              ticket := ticket + 1;
              send(desk[k], ticket);
              writeln('client ', k: 1, ' gets', ticket: 3)
            end
          else
            begin
              here[k] := false;
              left := left - 1;
              writeln('client ', k: 1, ' leaves')
            end
        end
end;

procedure client(wanted: integer; desk: line);
var i, ticket: integer;
begin
  for i := 1 to wanted do
    begin
      send(desk, true);
      receive(desk, ticket)
    end;
  send(desk, false)
end;

begin
  for i := 1 to clients do
    begin
      read(wanted[i]);
      open(desk[i])
    end;
  parallel
    serve
  |
    forall k := 1 to clients do client(wanted[k], desk[k])
  end
end.
