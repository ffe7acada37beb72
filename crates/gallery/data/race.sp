{ A race: two senders on one channel.
  No rule of interference is broken, since no variable is shared. But which of
  the two sends first is left to the schedule. One worker writes 12. With more
  workers it may be 21, or one sender finds the other's message still waiting,
  which is the fault F6. The verdict names two sends of which the later did not
  wait for the earlier to be received, by their indices in the timeline. With
  a channel for each sender the program would be ordered. }
program race;
type chan = *(integer);
var c: chan; x, y: integer;
begin
  open(c);
  parallel
    begin
      receive(c, x);
      receive(c, y)
    end
  |
    send(c, 1)
  |
    send(c, 2)
  end;
  writeln(x: 1, y: 1)
end.
