{ A compiler as a pipeline: four processes that work on one line at a time.
  The scanner makes symbols of characters, the parser makes code of symbols, the
  folder computes what needs no variable, and the machine runs the code. Each
  knows the next one by a channel of messages of its own type, and by nothing
  else; so each could be replaced. While the machine runs a line, the scanner is
  already at the next one. The procedures of the parser call each other, so they
  use no variable from outside (rule I6): the symbol that they are at goes from
  one to the other as a variable parameter. }
program compiler(input, output);
const most = 20;
type
  kind = (number, name, plus, minus, times, over, left, right, becomes, line, finish);
  symbol = record kind: kind; value: integer end;
  symbols = *(symbol);
  operation = (push, load, store, add, subtract, multiply, divide, halt);
  instruction = record operation: operation; value: integer end;
  code = *(instruction);
  stack = array [1..most] of integer;
  memory = array [0..25] of integer;
var found: symbols; made, folded: code;

procedure scan(sink: symbols);
var c: char; value: integer; ended: boolean;

  { The next character; a line feed at the end of a line. }
  procedure next;
  begin
    if eof then ended := true
    else if eoln then begin
      readln;
      c := chr(10)
    end
    else read(c)
  end;

  procedure pass(kind: kind; value: integer);
  var what: symbol;
  begin
    what.kind := kind;
    what.value := value;
    send(sink, what)
  end;

  procedure sign;
  begin
    case c of
      '+': pass(plus, 0);
      '-': pass(minus, 0);
      '*': pass(times, 0);
      '/': pass(over, 0);
      '(': pass(left, 0);
      ')': pass(right, 0);
      '=': pass(becomes, 0);
      ' ': ;
    end;
    next
  end;

begin
  ended := false;
  next;
  while not ended do
    if (c >= '0') and (c <= '9') then begin
      value := 0;
      while (c >= '0') and (c <= '9') and not ended do begin
        value := 10 * value + ord(c) - ord('0');
        next
      end;
      pass(number, value)
    end
    else if (c >= 'a') and (c <= 'z') then begin
      pass(name, ord(c) - ord('a'));
      next
    end
    else if c = chr(10) then begin
      pass(line, 0);
      next
    end
    else sign;
  pass(finish, 0)
end;

procedure emit(operation: operation; value: integer; sink: code);
var what: instruction;
begin
  what.operation := operation;
  what.value := value;
  send(sink, what)
end;

{ Sums of products of factors; the symbol after them is it. }
procedure expression(var it: symbol; source: symbols; sink: code);
var before: kind;

  procedure term(var it: symbol; source: symbols; sink: code);
  var before: kind;

    procedure factor(var it: symbol; source: symbols; sink: code);
    begin
      case it.kind of
        number: emit(push, it.value, sink);
        name: emit(load, it.value, sink);
        left:
          begin
            receive(source, it);
            expression(it, source, sink);
            assume it.kind = right
          end;
      end;
      receive(source, it)
    end;

  begin
    factor(it, source, sink);
    while (it.kind = times) or (it.kind = over) do begin
      before := it.kind;
      receive(source, it);
      factor(it, source, sink);
      if before = times then emit(multiply, 0, sink)
      else emit(divide, 0, sink)
    end
  end;

begin
  term(it, source, sink);
  while (it.kind = plus) or (it.kind = minus) do begin
    before := it.kind;
    receive(source, it);
    term(it, source, sink);
    if before = plus then emit(add, 0, sink)
    else emit(subtract, 0, sink)
  end
end;

{ Lines of the form NAME = EXPRESSION. }
procedure parse(source: symbols; sink: code);
var it: symbol; where: integer;
begin
  receive(source, it);
  while it.kind <> finish do begin
    assume it.kind = name;
    where := it.value;
    receive(source, it);
    assume it.kind = becomes;
    receive(source, it);
    expression(it, source, sink);
    assume it.kind = line;
    emit(store, where, sink);
    receive(source, it)
  end;
  emit(halt, 0, sink)
end;

{ What an operation makes of two numbers. }
function result(operation: operation; one, other: integer): integer;
begin
  case operation of
    add: result := one + other;
    subtract: result := one - other;
    multiply: result := one * other;
    divide: result := one div other;
  end
end;

{ Numbers wait until it is known whether an operation takes the last two. }
procedure fold(source, sink: code);
var it: instruction; held: stack; many, saved, k: integer;

  procedure release;
  var k: integer;
  begin
    for k := 1 to many do emit(push, held[k], sink);
    many := 0
  end;

begin
  many := 0;
  saved := 0;
  repeat
    receive(source, it);
    if it.operation = push then begin
      many := many + 1;
      held[many] := it.value
    end
    else if (it.operation >= add) and (it.operation <= divide) and (many >= 2) then begin
      held[many - 1] := result(it.operation, held[many - 1], held[many]);
      many := many - 1;
      saved := saved + 2
    end
    else begin
      release;
      if it.operation = halt then it.value := saved;
      send(sink, it)
    end
  until it.operation = halt
end;

{ Runs the code, and writes each variable that is stored. }
procedure run(source: code);
var it: instruction; values: stack; cells: memory; top, ran: integer;
begin
  top := 0;
  ran := 0;
  receive(source, it);
  while it.operation <> halt do begin
    ran := ran + 1;
    case it.operation of
      push:
        begin
          top := top + 1;
          values[top] := it.value
        end;
      load:
        begin
          top := top + 1;
          values[top] := cells[it.value]
        end;
      store:
        begin
          cells[it.value] := values[top];
          top := top - 1;
          writeln(chr(ord('a') + it.value), ' =', cells[it.value]: 6, ',', ran: 3, ' instructions');
          ran := 0
        end;
      add, subtract, multiply, divide:
        begin
          values[top - 1] := result(it.operation, values[top - 1], values[top]);
          top := top - 1
        end;
    end;
    receive(source, it)
  end;
  writeln(it.value: 1, ' instructions saved')
end;

begin
  open(found, made, folded);
  parallel
    scan(found)
  |
    parse(found, made)
  |
    fold(made, folded)
  |
    run(folded)
  end
end.
