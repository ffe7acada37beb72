"""Each rule and fault of docs/LANGUAGE.md is met by its own example, and explained with the right line."""
import os
import re

from cases import EXAMPLES, TOP, copy, read

from superpascal_tools import rule_pages

TOLD = {  # the examples that the page tells in words: the text, and the place of the refusal
    "L1": ("program e; begin end." + " " * (1048577 - 21), "1:1"),
    "S5": ("program e; var %s: integer; begin end." % ("x" * 128), "1:16"),
    "L2": ("program e; begin " + "begin " * 200, "1:1212"),
    "L4": ("program e; const " + " ".join("x%d = 1;" % n for n in range(4097)) + " begin end.", None),
    "L5": ("program e; var x: integer; begin write(" + ",".join(["x"] * 349526) + ") end.", "1:1"),
}
SHARED = """program shared;
var a, b: integer;
procedure show; begin write(a) end;
procedure outer; begin show end;
begin
  parallel
    b := 1
  | begin a := 2; outer end
  | if b = 3 then
      outer
  end
end.
"""
DEEP = """program deep;
type t = *(integer);
var c: t;
procedure fails(n: integer; var last: integer);
begin
  last := n;
  if n = 0 then
    last := 1 div n
  else
    fails(n - 1, last)
end;
procedure start(base: integer);
var x: integer;
begin fails(base, x) end;
begin
  parallel
    start(2)
  | open(c)
  end
end.
"""
TYPES = """program types;
type one = *(integer, char); net = array [1..2] of one;
var c: net;
procedure sender(n: integer; to_left: one);
begin send(to_left, 'a') end;
procedure taker(from: one);
var x: integer;
begin receive(from, x) end;
begin
  open(c[1], c[2]);
  parallel sender(7, c[2]) | taker(c[2]) end
end.
"""


def test(case):
    """All explanations."""
    names = sorted(rule_pages.rules_and_faults(), key=lambda it: (it[0] == "F", it[0], int(it[1:])))
    told = case.each(lambda name: rule(case, name) if name[0] != "F" else fault(case, name), names)
    for name in ("philosophers", "race", "interference"):
        told.append(of(case, ["run", copy(os.path.join(EXAMPLES, name + ".sp"), case.folder), "--workers", "1"]))
    copy(os.path.join(EXAMPLES, "race_clash.journal"), case.folder)
    told.append(of(case, ["replay", "race.sp", "race_clash.journal"]))
    told.append(of(case, ["witness", "race.sp", "--workers", "1"]))
    for name, text in (("shared", SHARED), ("deep", DEEP), ("types", TYPES)):
        case.file(name + ".sp", text)
        told.append(of(case, ["run", name + ".sp", "--workers", "1"]))
    case.stored("".join(told), "explanations.txt")
    page = read(os.path.join(TOP, "docs/TOOLS.md")).decode()
    shown = of(case, ["run", "philosophers.sp", "--workers", "1"], whole=True)
    shown = shown.replace("philosophers.sp", "examples/philosophers.sp")
    case.check(shown in page, "the deadlock of docs/TOOLS.md is another one")


def of(case, words, data=b"", whole=False):
    """What explain adds to a call, without the page's sentences; output, notes and status are the program's."""
    status, output, notes = case.run(words, data)
    got, written, said = case.tool("explain", words, data)
    case.check((got, written) == (status, output), "%s: another status or output" % words)
    case.check(said.startswith(notes), "%s: other notes" % words)
    case.check("Traceback" not in said and "explain:" not in said, "%s: %s" % (words, said[-300:]))
    if whole:
        return said
    said = said[len(notes):]
    for name in re.findall(r"\n  ([A-Z]\d+) is broken", said):
        said = said.replace("  " + rule_pages.sentence(name), "  (what the language says of %s)\n" % name)
    said = re.sub(r"(F\d+ comes exactly if) .*", r"\1 (as the language says)\n", said, flags=re.S)
    return "== %s\n%s%s" % (" ".join(words), notes, said)


def rule(case, name):
    """The example of a rule."""
    text, behind = rule_pages.example(name)
    place = re.search(r"at (\d+:\d+)", behind)
    place = place[1] if place else None
    if name in TOLD:
        text, place = TOLD[name]
    file = os.path.basename(case.file(name + ".sp", text))
    said = of(case, ["check", file])
    notes = said.split("\n")[1]
    case.check(notes == "refused %s %s" % (name, place) if place else notes.startswith("refused %s " % name),
               "%s: the example gives %s" % (name, notes))
    return line_named(case, name, said)


def fault(case, name):
    """The example of a fault."""
    text, behind = rule_pages.example(name)
    file = os.path.basename(case.file(name + ".sp", text))
    options = re.search(r"with `(--\w+) (\d+)`", behind)
    data = re.search(r"on the input `(.*?)`", behind)
    process = re.search(r"in `(.*?)`", behind)
    words = ["run", file, "--workers", "1"] + (list(options.groups()) if options else [])
    said = of(case, words, data[1].encode() if data else b"")
    notes = said.split("\n")[1]
    wanted = "fault %s %s" % (name, process[1] if process else "0")
    case.check(notes == wanted, "%s: the example gives %s" % (name, notes))
    return line_named(case, name, said)


def line_named(case, name, said):
    """The first line that is shown is the first line of these examples, with its caret below it."""
    lines = said.split("\n")
    shown = next((number for number, line in enumerate(lines) if re.match(r" *1 \| ", line)), None)
    case.check(shown is not None and lines[shown + 1].strip() == "^", "%s: no line 1 with a caret" % name)
    return said
