"""Texts of two growing sizes, each as long as a text may be: the module of tests/hostile for programs.

`texts()` gives pairs of a name and the bytes of a program. Each one has two sizes that multiply if a command keeps
something for each pair: children and implicit variables, calls and formals, arms and constants, and so on. Names are as
short as they can be, so that both sizes are as great as the length of a text allows.
"""
import itertools
import string

LIMIT = 1_048_576
MOST = 4_096
LETTERS = string.ascii_lowercase
WORDS = set(
    "and array assume begin case const div do downto else end for forall function if mod not of or parallel procedure "
    "program record repeat then to type until var while file forward goto in label nil packed set sic with".split()
)
STANDARD = set(
    "integer boolean char false true maxint abs sqr odd ord chr succ pred eof eoln read readln write writeln open "
    "send receive".split()
)


def names(count, but=()):
    """This number of short names, the shortest first, none of them a word, a standard name or one of these."""
    found = []
    for size in itertools.count(1):
        for rest in itertools.product(LETTERS + string.digits, repeat=size - 1):
            for first in LETTERS:
                name = first + "".join(rest)
                if name in WORDS or name in STANDARD or name in but:
                    continue
                found.append(name)
                if len(found) == count:
                    return found


def filled(before, parts, between, after, most=None):
    """The text of `before`, as many of the parts as fit, with `between` between two, and `after`. Parts may repeat.
    There are at most `most` parts.
    """
    room = LIMIT - len(before) - len(after)
    chosen, size = [], -len(between)
    for part in itertools.islice(parts, most):
        size += len(part) + len(between)
        if size > room:
            break
        chosen.append(part)
    return (before + between.join(chosen) + after).encode()


def declared(found, kind="integer"):
    """The part that declares variables of these names, lines of 1,000 so that columns stay small."""
    return "var " + ",".join(found) + ":" + kind + ";\n"


def using(found, into):
    """A statement that reads all of these variables, by sums of 150 so that no chain is long."""
    return ";".join(into + ":=" + "+".join(found[i:i + 150]) for i in range(0, len(found), 150))


def results(but, count=3900):
    """This number of functions, inside a procedure: their results have numbers before those of what follows."""
    inner = "".join(f"function {x}:integer;begin {x}:=1 end;\n" for x in names(count, but))
    return "procedure " + "r" * 20 + ";\n" + inner + "begin end;\n"


def children_and_implicit():
    """Children that each call a procedure with 4,000 implicit expression variables."""
    found = names(4000, ["p", "q"])
    before = "program a;" + declared(found) + "procedure p;var q:integer;begin " + using(found, "q") + " end;\n"
    return filled(before + "begin parallel ", itertools.repeat("p"), "|", " end end.")


def children_and_two_sets():
    """Children that each call one of two procedures and use a variable of their own, so that no two sets are equal."""
    found = names(4000, ["p", "q"])
    own = [x for x in found if len(x) == 2]
    before = "program a;" + declared(found) + "procedure p(q:integer);begin " + using(found[:2000], "q") + " end;\n"
    pairs = (f"p({x}+{y})" for x in own for y in own)
    return filled(before + "begin parallel ", pairs, "|", " end end.")


def calls_and_implicit():
    """Calls of a procedure with 4,000 implicit targets, one after another."""
    found = names(4000, ["p", "q"])
    body = ";".join(x + ":=" + x for x in found)
    return filled("program a;" + declared(found) + "procedure p;begin " + body + " end;\nbegin ",
                  itertools.repeat("p"), ";", " end.")


def results_and_assignments():
    """Assignments to the last of 8,192 variables: results of functions have numbers too."""
    functions = "".join(f"function {x}:integer;begin {x}:=1 end;\n" for x in names(4090, ["a"]))
    before = "program b;" + functions + declared(names(4000, ["a"] + names(4090, ["a"]))) + "var a:integer;begin "
    return filled(before, itertools.repeat("a:=a"), ";", " end.")


def many_functions():
    """Calls of each of many functions, whose results are assigned to each of many variables."""
    called = names(600, ["a"])
    found = names(3000, ["a"] + called)
    functions = "".join(f"function {x}:integer;begin {x}:=1 end;\n" for x in called)
    assignments = (f"{x}:={y}" for x in found for y in called)
    return filled("program b;" + declared(found) + functions + "begin ", assignments, ";", " end.")


def many_procedures():
    """Children that each call one of 4,000 procedures with implicit variables of their own."""
    found = names(60, ["q"])
    called = names(3900, ["q"] + found)
    procedures = "".join(
        f"procedure {p};begin q:={found[i % 60]}+{found[i // 60 % 60]} end;\n" for i, p in enumerate(called)
    )
    before = "program a;var q:integer;" + declared(found) + procedures
    return filled(before + "begin parallel ", itertools.cycle(called), "|", " end end.")


def nested_statements():
    """Statements 190 deep, each of which adds a variable to the sets of those around it."""
    found = names(4000, ["q"])
    each = itertools.cycle(found)
    deep = ("".join(f"while {next(each)}>0 do " for _ in range(190)) + "q:=1" for _ in itertools.count())
    return filled("program a;" + declared(found + ["q"]) + "begin ", deep, ";", " end.")


def nested_blocks():
    """Compound statements 190 deep around one assignment."""
    found = names(4000, ["q"])
    deep = ("begin " * 190 + f"{x}:={y}" + " end" * 190 for x in found for y in found)
    return filled("program a;" + declared(found) + "begin ", deep, ";", " end.")


def calls_and_results():
    """The same, if all numbers are above 3,900."""
    found = names(4000, ["p", "q"])
    body = ";".join(x + ":=" + x for x in found)
    return filled("program a;" + results([]) + declared(found) + "procedure p;begin " + body + " end;\nbegin ",
                  itertools.repeat("p"), ";", " end.")


def calls_and_formals():
    """Calls with 2,000 value parameters."""
    formals = names(2000)
    before = "program a;procedure p(" + ",".join(formals) + ":integer);begin end;\nbegin "
    return filled(before, itertools.repeat("p(" + ",".join(["1"] * 2000) + ")"), ";", " end.")


def calls_and_references():
    """Calls with 2,000 variable parameters, none of which repeats."""
    formals = names(2000)
    found = names(2000, ["p"])
    before = "program a;procedure p(var " + ",".join(formals) + ":integer);begin end;\n" + declared(found) + "begin "
    return filled(before, itertools.repeat("p(" + ",".join(found) + ")"), ";", " end.")


def references_and_implicit():
    """Calls with a variable parameter of a procedure with 3,900 implicit variables."""
    found = names(3900, ["p", "q", "z"])
    before = "program a;" + declared(found) + "procedure p(var q:integer);begin " + using(found, "q") + " end;\n"
    return filled(before + declared(["z"]) + "begin ", itertools.repeat("p(z)"), ";", " end.")


def arms_and_constants():
    """Arms with many constants each, in loops."""
    numbers = itertools.count()
    arms = (",".join(str(next(numbers)) for _ in range(500)) + ":q:=1" for _ in itertools.count())
    return filled("program a;var q:integer;begin while true do case q of ", arms, ";", " end end.")


def cases_in_loops():
    """Many `case` in loops, whose arms call a procedure with 4,000 implicit variables."""
    found = names(4000, ["p", "q"])
    before = "program a;" + declared(found) + "procedure p;var q:integer;begin " + using(found, "q") + " end;\n"
    parts = itertools.repeat("while a=1 do case a of 1:p;2:p;3:p end")
    return filled(before + "begin ", parts, ";", " end.")


def records_in_records():
    """A record in a record in a record, 4,000 deep, selected to the bottom."""
    types = names(4000, ["a", "x"])
    chain = f"type {types[0]}=record a:integer end;\n" + "".join(
        f"{t}=record a:{s} end;\n" for s, t in zip(types, types[1:])
    )
    before = "program b;" + chain + f"var x:{types[-1]};begin "
    return filled(before, itertools.repeat("x" + ".a" * 4000 + ":=1"), ";", " end.")


def wide_records():
    """Records with 40 fields each, of the records before them."""
    types = names(600, ["x"])
    fields = names(200)
    chain = f"type {types[0]}=record " + ",".join(fields) + ":integer end;\n"
    chain += "".join(f"{t}=record {','.join(fields)}:{types[0]} end;\n" for t in types[1:])
    before = "program b;" + chain + f"var x:{types[-1]};begin "
    return filled(before, (f"x.{f}.{g}:=1" for f in itertools.cycle(fields) for g in fields), ";", " end.")


def channels_of_types():
    """Channel types of 1,000 message types each, and sends of the last of them."""
    types = names(1000, ["c", "v"])
    chain = "type " + "".join(f"{t}=record a:integer end;\n" for t in types)
    chans = names(100, ["c", "v"] + types)
    chain += "".join(f"{c}=*({','.join(types)});\n" for c in chans)
    before = "program b;" + chain + f"var v:{types[-1]};c:{chans[-1]};begin "
    return filled(before, itertools.repeat("send(c,v)"), ";", " end.")


def sends_and_channel():
    """A `send` of 250,000 values on a channel whose index reads 3,000 variables and calls a function."""
    found = names(3000, ["c", "d", "t", "f", "q"])
    before = ("program b;type d=*(integer);t=array[0..1] of d;" + declared(found) + "var c:t;"
              + "function f:integer;var q:integer;begin " + using(found, "q") + ";f:=0 end;\nbegin send(c[f+"
              + "+".join(found) + "]," )
    return filled(before, itertools.cycle(found), ",", ") end.")


def sends_and_results():
    """As many values as there may be, on a channel whose index reads variables with the greatest numbers."""
    found = names(3000, ["c", "d", "t", "f", "q"])
    before = ("program a;type d=*(integer);t=array[0..1] of d;" + results([]) + declared(found) + "var c:t;"
              + "function f:integer;var q:integer;begin " + using(found, "q") + ";f:=0 end;\nbegin send(c[f+"
              + "+".join(found) + "]," )
    return filled(before, itertools.repeat("1"), ",", ") end.")


def nested_procedures():
    """Procedures 190 deep, each with variables of its own that the inner ones use."""
    found = names(3800)
    text = ["program a;\n"]
    for level in range(190):
        own = found[level * 20:level * 20 + 20]
        text.append(f"procedure {'p' * 1}{level};" + declared(own))
    used = using(found, "a")
    text.append("begin " + used + " end;\n")
    for level in range(189, 0, -1):
        text.append(f"begin p{level} end;\n")
    return filled("".join(text) + "begin ", itertools.repeat("p0"), ";", " end.")


def sweeps_of_calls():
    """Calls that lead inwards and outwards in turn, 95 times, and 200,000 calls of all blocks by all."""
    others = [x for x in names(4000) if len(x) == 2 and x[0] not in "yz"][:800]
    wide = names(3900, ["y", "z"] + others)[-60:]
    text = ["program a;", results(others, 3000), declared(names(3900, ["y", "z"] + others))]
    text += [f"procedure {x};begin {wide[0]}:={wide[i % 60]} end;\n" for i, x in enumerate(others)]
    for level in range(95):
        text.append(f"procedure z_{level};procedure y_{level};begin z_{max(level - 1, 0)} end;\n")
    size = sum(map(len, text))
    room = (LIMIT - size - 4000) // 96
    for level in range(94, -1, -1):
        calls, spent = [], 0
        for x in others:
            spent += len(x) + 1
            if spent > room:
                break
            calls.append(x)
        text.append(f"begin y_{level};" + ";".join(calls) + " end;\n")
    return filled("".join(text) + "begin ", itertools.repeat("z_0"), ";", " end.")


def foralls_and_implicit():
    """Foralls whose element statement calls a procedure with 4,000 implicit expression variables."""
    found = names(4000, ["p", "q", "i"])[:3900]
    before = "program a;" + declared(found) + "procedure p;var q:integer;begin " + using(found, "q") + " end;\n"
    return filled(before + "begin ", itertools.repeat("forall i:=1 to 1 do p"), ";", " end.", 150)


def parallels_in_parallels():
    """Parallel statements in parallel statements, 95 deep."""
    found = names(4000, ["p", "q"])
    before = "program a;" + declared(found) + "procedure p;var q:integer;begin " + using(found, "q") + " end;\n"
    deep = itertools.repeat("parallel p|" * 95 + "p" + " end" * 95)
    return filled(before + "begin ", deep, ";", " end.")


def clashing_children():
    """Children that write one variable each, and at last one that was written."""
    found = names(4000)
    return filled("program a;" + declared(found) + "begin parallel ", (x + ":=1" for x in itertools.cycle(found)),
                  "|", " end end.")


def long_names():
    """Names of 127 letters, which the text of the sets writes out for each child."""
    found = ["v" * 122 + f"{i:05}" for i in range(2000)]
    before = "program a;" + declared(found) + "procedure p;var q:integer;begin " + using(found, "q") + " end;\n"
    return filled(before + "begin parallel ", itertools.repeat("p"), "|", " end end.")


def refused_late():
    """The children and the implicit variables, and a rule of types that the last statement breaks."""
    found = names(4000, ["p", "q"])
    before = "program a;" + declared(found) + "procedure p;var q:integer;begin " + using(found, "q") + " end;\n"
    return filled(before + "begin parallel ", itertools.repeat("p"), "|", f" end;{found[0]}:=true end.")


def too_long_code():
    """The children and the implicit variables, with more code than there may be."""
    found = names(4000, ["p", "q"])
    before = "program a;" + declared(found) + "procedure p;var q:integer;begin " + using(found, "q") + " end;\n"
    return filled(before + "begin parallel ", itertools.repeat("p"), "|", " end;parallel p;p;p;p end end.")


def many_handed():
    """260,000 children that call a procedure with 128 implicit variables: as much as forks may hand over."""
    found = names(128, ["p", "q"])
    before = "program a;" + declared(found) + "procedure p;var q:integer;begin " + using(found, "q") + " end;\n"
    return filled(before + "begin parallel ", itertools.repeat("p"), "|", " end end.", 260_000)


def few_handed_much():
    """8,300 children with 4,000 variables each: as much as forks may hand over."""
    found = names(4000, ["p", "q"])
    before = "program a;" + declared(found) + "procedure p;var q:integer;begin " + using(found, "q") + " end;\n"
    return filled(before + "begin parallel ", itertools.repeat("p"), "|", " end end.", 8_300)


TEXTS = [
    children_and_implicit, children_and_two_sets, calls_and_implicit, results_and_assignments, many_functions,
    many_procedures, nested_statements, nested_blocks, calls_and_formals, calls_and_references,
    references_and_implicit, arms_and_constants, cases_in_loops, calls_and_results, sends_and_results,
    records_in_records, wide_records,
    channels_of_types, sends_and_channel, nested_procedures, sweeps_of_calls, foralls_and_implicit,
    parallels_in_parallels, clashing_children, long_names, refused_late, too_long_code, many_handed, few_handed_much
]


def texts():
    """Pairs of a name and a text."""
    for make in TEXTS:
        yield make.__name__, make()
