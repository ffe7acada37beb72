"""The variables that explain finds in statements and procedures are those that the command `sets` tells."""
import random
import re

from cases import gallery, read

from superpascal_tools.outline import Outline
from superpascal_tools.uses import Uses

LINE = re.compile(r"(?:implicit (\w+)|(parallel|forall) (\d+:\d+) ?(\d*)) targets(.*) expressions(.*)$")
NESTED = """program n;
var a, b, c: integer;
procedure p;
var x, y: integer;
procedure q(var z: integer; w: integer);
var a: integer;
begin %s end;
procedure s;
begin %s end;
begin %s end;
procedure o;
begin %s end;
begin
  parallel %s | %s | forall i := 1 to 2 do forall j := i to 2 do begin %s end end
end.
"""
STATEMENTS = (
    ("z := w", "x := a", "a := b", "q(x, c)", "write(y)", "y := ord(eoln)", "p"),
    ("q(y, x)", "q(b, a)", "x := b", "s", "read(c)"),
    ("s", "q(x, b)", "q(c, y)", "a := x", "p"),
    ("p", "o", "b := c", "write(a)"),
    ("p", "o", "a := b", "read(b)"),
    ("o", "write(c)", "c := a"),
    ("p", "a := i", "write(j)", "b := b + i"),
)
SEED = 7
RANDOM = 40


def test(case):
    """The gallery, and random texts of procedures in procedures."""
    chance = random.Random(SEED)
    texts = {name: read(path).decode("latin1") for name, path, _ in gallery()}
    for number in range(RANDOM):
        texts["nested %d" % number] = NESTED % tuple("; ".join(chance.sample(those, 2)) for those in STATEMENTS)
    for name, text in texts.items():
        status, told, _ = case.run(["sets", case.file("sets.sp", text)])
        if status == 0:
            case.same("\n".join(found(Outline(text), told.decode())), told.decode().rstrip("\n"), name + ": the sets")


def found(program, told):
    """The lines of `sets`, with the variables as they are found here."""
    uses = Uses(program)
    parallels = {"%d:%d" % place: parts for place, parts in program.parallels}
    foralls = {"%d:%d" % place: tokens for place, tokens in program.foralls}
    blocks = iter(sorted((it for it in program.blocks if it is not program.main), key=lambda it: it.place))
    for line in told.splitlines():
        name, _, place, number, *_ = LINE.match(line).groups()
        if name:
            reached = uses.implicit[next(blocks)]
        else:
            reached = uses.reached(*(parallels[place][int(number)] if number else foralls[place]))
        head = line.split(" targets")[0]
        yield "%s targets%s expressions%s" % (head, named(program, reached, True), named(program, reached, False))


def named(program, reached, target):
    """The names of these variables: the input and the output first, then by place of declaration."""
    names = {program.input: "input", program.output: "output"}
    those = {variable for variable, kind in reached if kind == target}
    first = [names[it] for it in names if it in those]
    return "".join(" " + it for it in first + [it.name for it in sorted(those - set(names), key=lambda it: it.place)])
