{ A chain that grows while it runs.
  The first number that comes to a sieve is a prime. The sieve writes it, opens
  a channel, starts the next sieve, and passes on the numbers that this prime
  does not divide; 0 ends the row. Only one process statement writes, so the
  primes come out in order and no rule is broken: the input and the output are
  the only variables that a procedure that calls itself may use from around it. }
program sieve;
const greatest = 50;
type chan = *(integer);
var first: chan; i: integer;

procedure strain(left: chan);
var right: chan; prime, x: integer;
begin
  receive(left, prime);
  if prime > 0 then
    begin
      write(prime: 3);
      open(right);
      parallel
        begin
          repeat
            receive(left, x);
            if x mod prime > 0 then send(right, x)
          until x = 0;
          send(right, 0)
        end
      |
        strain(right)
      end
    end
end;

begin
  open(first);
  parallel
    begin
      for i := 2 to greatest do send(first, i);
      send(first, 0)
    end
  |
    strain(first)
  end;
  writeln
end.
