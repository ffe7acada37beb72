{ Neighbours on a grid exchange numbers and never wait for each other in a circle.
  The cells are coloured like the fields of a chess board, so that neighbours
  have different colours. On each link the black cell sends first and the white
  one receives first, and both take their links in an order in which they meet.
  One channel serves both ways: a cell sends again only after it has received.
  In each step a cell adds to its number those of its neighbours. So after three
  steps it has the number of walks of three moves that lead to it from the cell
  in the middle, where a move goes to a neighbour or stays. }
program grid;
const
  n = 3;
  steps = 3;
type
  chan = *(integer);
  chans = array [0..n] of chan;
  net = array [0..n] of chans;
var across, down, results: net; i, j, ways: integer;

procedure exchange(black: boolean; link: chan; mine: integer; var sum: integer);
var other: integer;
begin
  if black then
    begin
      send(link, mine);
      receive(link, other)
    end
  else
    begin
      receive(link, other);
      send(link, mine)
    end;
  sum := sum + other
end;

procedure cell(row, column: integer; west, east, north, south, result: chan);
var step, mine, sum: integer; black: boolean;
begin
  black := not odd(row + column);
  if (row = 2) and (column = 2) then mine := 1 else mine := 0;
  for step := 1 to steps do
    begin
      sum := mine;
      if black then
        begin
          if column < n then exchange(black, east, mine, sum);
          if column > 1 then exchange(black, west, mine, sum);
          if row < n then exchange(black, south, mine, sum);
          if row > 1 then exchange(black, north, mine, sum)
        end
      else
        begin
          if column > 1 then exchange(black, west, mine, sum);
          if column < n then exchange(black, east, mine, sum);
          if row > 1 then exchange(black, north, mine, sum);
          if row < n then exchange(black, south, mine, sum)
        end;
      mine := sum
    end;
  send(result, mine)
end;

begin
  for i := 0 to n do
    for j := 0 to n do
      open(across[i, j], down[i, j], results[i, j]);
  parallel
    forall row := 1 to n do
      forall column := 1 to n do
        cell(row, column, across[row, column - 1], across[row, column],
          down[row - 1, column], down[row, column], results[row, column])
  |
    for i := 1 to n do
      begin
        for j := 1 to n do
          begin
            receive(results[i, j], ways);
            write(ways: 4)
          end;
        writeln
      end
  end
end.
