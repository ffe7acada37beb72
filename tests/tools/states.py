#!/usr/bin/env python3
"""Random parallel programs: what explain says of their ends is what `where` says of the state after the last entry.

tests/tools/states.py PROGRAM [COUNT [SEED]] makes COUNT programs and prints how many ended in which way;
tests/tools/run makes a few of them.
"""
import collections
import os
import random
import re
import sys

from cases import TOP, made_by_number

if __name__ == "__main__":
    sys.path.insert(0, os.path.join(TOP, "tools"))

FEW = 12
LIMITS = ["--workers", "1", "--ticks", "2000", "--depth", "40"]
HEAD = """program r;
const n = %d;
type ch = *(integer); net = array [0..n] of ch; row = array [1..3] of integer;
var c: net; i: integer; %s: integer;
function f(m: integer): integer;
begin
  if m > 3 then f := 6 div (m - 4) else f := f(m + 1)
end;
procedure r(var u: integer; var b: row);
begin
  u := b[u] + 1
end;
procedure p(k: integer; left, right: ch);
var x, j: integer; a: row;
begin
  x := k;
  a[1] := k;
  %s
end;
procedure q(k: integer; left, right: ch);
begin
  if k > 0 then
    parallel p(k, left, right) | q(k - 1, right, left) end
  else
    p(k, left, right)
end;
begin
  for i := 0 to n do open(c[i]);
  parallel
    %s
  end
end.
"""
INNER = ("send(right, x)", "receive(left, x)", "send(left, k * 2)", "receive(right, a[k])", "x := 12 div (x - 1)",
         "for j := 1 to 2 do begin receive(left, x); send(right, x + j) end", "assume x < 9", "a[x] := x", "x := a[2]",
         "if x > 1 then send(right, x) else receive(left, x)", "case x of 0, 1, 2: x := x + 1; 3: send(right, 1) end",
         "x := f(x) + 1", "r(x, a)", "while x > 0 do x := x + 1", "repeat receive(left, x) until x > 2")
OUTER = ("send(c[%d], %s)", "receive(c[%d], %s)", "p(2, c[%d], c[%d])", "q(1, c[%d], c[%d])", "q(3, c[%d], c[%d])",
         "%s := 3", "assume %s > 1", "begin send(c[%d], 1); receive(c[%d], %s) end",
         "forall k := 1 to 2 do p(k, c[%d], c[k])")
PLACE = re.compile(r" +\S+\.sp:(\d+:\d+)$")
NAME = re.compile(r"    (0\S*) (?:in|\()")
WAITS = re.compile(r"      waits to (send|receive) .*? channel (\S+)")


def program(seed):
    """A random program; each process statement has variables of its own."""
    chance = random.Random(seed)
    most, parts = chance.randrange(2, 5), []
    names = ["x%d" % number for number in range(chance.randrange(2, 5))]
    for name in names:
        statements = []
        for _ in range(chance.randrange(1, 4)):
            form = chance.choice(OUTER)
            statements.append(form % tuple(
                chance.randrange(most) if it == "d" else name for it in re.findall("%(.)", form)))
        if chance.random() < 0.5:
            statements.insert(0, "%s := %d" % (name, chance.randrange(4)))
        parts.append(";\n    ".join(statements))
    body = ";\n  ".join(chance.choice(INNER) for _ in range(chance.randrange(1, 5)))
    return HEAD % (most, ", ".join(names), body, "\n  | ".join(parts))


def state_of(told):
    """The processes of a state by name: place, what it does, its frames with the places of calls and variables."""
    found, name = {}, ""
    for line in told.split("\n")[1:]:
        if line.startswith("0"):
            name, place, *does = line.split(" ")
            found[name] = (place, " ".join(does), [])
        elif line.startswith("    "):
            found[name][2][-1][2].append(line[4:])
        elif line:
            found[name][2].append((line.split()[0], line.split()[1:], []))
    return found


def compare(case, number, text, seed):
    """One program: gives the line of its end."""
    file = case.file("random%d.sp" % number, text)
    name = os.path.basename(file)
    status, _, notes = case.run(["run", name, "--show", "timeline", *LIMITS])
    what = "random program %d of seed %s" % (number, seed)
    if status not in (0, 3, 4):
        case.check(False, "%s: %s" % (what, notes[:200]))
        return notes.split("\n")[0]
    head, _, lines = notes.partition("\ntimeline\n")
    case.file(name + ".journal", "superpascal journal 2\n" + re.sub(r"(?m)^\d+ ", "", lines))
    words = [it for it in LIMITS if it not in ("--workers", "1")]
    state = state_of(case.run(["where", name, name + ".journal", *words])[1].decode("latin1"))
    got, _, said = case.tool("explain", ["run", name, *LIMITS])
    case.check(got == status and "Traceback" not in said and "explain: " not in said, "%s: %s" % (what, said[-300:]))
    told = said[len(head) + 1:].split("\n")
    end = head.split("\n")[0]
    if end == "deadlock":
        deadlock(case, what, state, told)
    elif end.startswith("fault"):
        fault(case, what, state, told, end.split(" ")[1:])
    return " ".join(end.split(" ")[:2])


def deadlock(case, what, state, told):
    """Each process that waits stands below its place, with its offer and channel; who could come is in the state."""
    told = told[next(at for at, line in enumerate(told) if ": deadlock: " in line):]
    wanted = {(name, place, does) for name, (place, does, _) in state.items() if does.startswith(("send", "receive"))}
    place, name, found = re.match(r"\S+?\.sp:(\d+:\d+): ", told[0])[1], "", set()
    for line in told:
        place = (PLACE.match(line) or (0, place))[1]
        name = (NAME.match(line) or (0, name))[1]
        offer = WAITS.match(line)
        if offer:
            found.add((name, place, "%s %s" % offer.groups()))
        comer = re.match(r" +could be met by (\S+) ", line)
        if comer:
            case.check(comer[1] in state, "%s: %s is in no state" % (what, line))
    case.check(found == wanted, "%s: got %s, wanted %s" % (what, sorted(found - wanted), sorted(wanted - found)))
    for name in re.findall(r"0(?:/\d+\.\d+)*", told[0].partition("circle")[2]):
        case.check(name in state and state[name][1].startswith(("send", "receive", "join")), "%s: the circle" % what)


def fault(case, what, state, told, named):
    """The place, the calls that lead there, the variables, and of a clash who waits there."""
    place, does, frames = state[named[1]]
    case.check(".sp:%s: " % place in told[0], what + ": the place")
    case.check(does == "fault " + named[0], what + ": the fault of " + named[1])
    calls, ancestor = [], named[1]
    while ancestor:
        calls += [(at[0].split(":")[0], block) for block, at, _ in state[ancestor][2] if at]
        ancestor = ancestor.rpartition("/")[0]
    lines = [re.match(r"    called at line (\d+): (\w+)", line) for line in told]
    case.check([it.groups() for it in lines if it][:len(calls)] == calls[:12], "%s: the calls %s" % (what, calls))
    shown = {it for _, _, below in state.values() for _, _, values in below for it in values}
    text = "\n".join(told).partition("    where ")[2].replace("\n      ", " ").partition("\n")[0]
    for value in re.findall(r"\w+ = (?:\[[^\]]*\]|[^,\n]+)", text):
        case.check(value in shown or value.endswith(".."), "%s: %s is no value of where" % (what, value))
    if named[0] in ("F6", "F7"):
        other = re.search(r"There waits since entry \d+ process (\S+) ", "\n".join(told))
        case.check(other and state[other[1]][1].startswith(("send", "receive")), what + ": who waits there")


def make(case, count, seed):
    """Makes this number of programs; gives how many ended in which way."""
    texts = [program("%s %d" % (seed, number)) for number in range(count)]
    ends = case.each(lambda it: compare(case, *it, seed), list(enumerate(texts)))
    return collections.Counter(ends)


def test(case):
    """Some programs."""
    make(case, FEW, 1)


if __name__ == "__main__":
    sys.exit(made_by_number(__file__, make, 1000))
