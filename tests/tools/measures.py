"""tools/speedup and tools/compare: chains of small journals by hand, tables, plots, and first differences."""
import os
import re
import xml.dom.minidom

from cases import EXAMPLES, copy
from superpascal_tools.chain import each_pause, longest_chain
from superpascal_tools.journal import entry_of

# Journals, with the length of the longest chain, and that of its pauses.
CHAINS = (
    ("0 end", 1, 0),
    # (a fork, the longer one of two children, the end of the root)
    ("0 fork 2, 0/0.0 end, 0/0.1 open, 0/0.1 end, 0 end", 4, 0),
    # (two forks one after the other: no child of the second begins before the first has ended)
    ("0 fork 1, 0/0.0 open, 0/0.0 end, 0 fork 2, 0/1.0 end, 0/1.1 end, 0 end", 6, 0),
    # (of two that meet both go on after the later offer; the receiver waits for the sender's two channels)
    ("0 open, 0 fork 2, 0/0.0 receive 0#0, 0/0.1 open, 0/0.1 open, 0/0.1 send 0#0, 0/0.1 end, 0/0.0 end, 0 end", 7, 0),
    ("0 open, 0 fork 2, 0/0.1 open, 0/0.1 open, 0/0.1 send 0#0, 0/0.0 receive 0#0, 0/0.0 end, 0/0.1 end, 0 end", 7, 0),
    # (offers that nobody meets)
    ("0 open, 0 fork 1, 0/0.0 receive 0#0", 3, 0),
    # (two that compute side by side, and one after them)
    ("0 fork 2, 0/0.0 pause, 0/0.0 pause, 0/0.1 pause, 0/0.0 end, 0/0.1 end, 0 pause, 0 end", 6, 3),
)
ROW = re.compile(r" +(\d+) +\d+\.\d{3} +\d+\.\d\d")
TEXT = "program c;\ntype chan = *(integer);\nvar c: chan; x: integer;\nbegin\n  open(c);\n  parallel\n" \
    "    send(c, 1)\n  |\n    receive(c, x)\n  end;\n  writeln(x)\nend.\n"


def test(case):
    """All of them."""
    for name in ("race.sp", "race_other.journal", "race_clash.journal", "torus.sp", "philosophers.sp"):
        copy(os.path.join(EXAMPLES, name), case.folder)
    chains(case)
    tables(case)
    differences(case)


def chains(case):
    """The longest chains, and that of an ordered run in two schedules."""
    for text, wanted, pauses in CHAINS:
        entries = [entry_of(line) for line in text.split(", ")]
        found = longest_chain(entries)
        case.check((found.weight, len(found.entries)) == (wanted, wanted), "the chain of %s: %s" % (text, found))
        case.check(longest_chain(entries, each_pause).weight == pauses, "the pauses of %s" % text)
    weights = set()
    for workers in ("1", "2", "8"):
        notes = case.run(["run", "torus.sp", "--workers", workers, "--show", "journal"])[2]
        weights.add(longest_chain([entry_of(line) for line in notes.split("\n")[1:-1]]).weight)
    case.check(len(weights) == 1, "one chain in all schedules: %s" % weights)


def tables(case):
    """A row for each number of workers, the chain, and a plot that is XML."""
    status, told, said = case.tool("speedup", ["--times", "1", "--workers", "2,1", "--svg", "race.svg", "race.sp"])
    lines = told.decode().split("\n")
    rows = [got[1] for got in map(ROW.fullmatch, lines) if got]
    case.check(status == 0 and not said and rows == ["1", "2"], "the rows of a table: %s %s" % (told, said))
    case.check("the longest chain: 6 of 10 entries" in lines and
               "so no number of workers makes it more than 1.7 times as fast" in lines, "its chain: %s" % told)
    case.check("the run: done, race send 0#0 3 4; 4 processes, 10 entries, 0 pauses" in lines, "its run: %s" % told)
    with open(os.path.join(case.folder, "race.svg"), encoding="utf-8") as file:
        svg = file.read()
    circles = len(xml.dom.minidom.parseString(svg).getElementsByTagName("circle"))
    case.check(circles == 2 and "at most 1.7, with any number of workers" in svg, "the plot: %s" % svg[:300])
    case.file("loop.sp", "program l; begin forall k := 1 to 4 do begin while k > 0 do end end.")
    told = case.tool("speedup", ["--times", "1", "--workers", "1", "loop.sp", "--ticks", "1000000"])[1].decode()
    case.check("fault F10" in told and "pauses of 100,000 ticks" in told, "a run that computes: %s" % told)


def differences(case):
    """The first difference of two journals, and of two texts."""
    case.file("one.journal", case.run(["run", "race.sp", "--workers", "1", "--show", "journal"])[2])
    other = "program r; type ch = *(integer); var c: ch; begin open(c); parallel begin send(c, 1); send(c, 2) end | " \
        "begin end | begin end end end."
    case.file("other.sp", other)
    case.file("three.sp", TEXT.replace("c, 1", "c, 3"))
    case.file("two.sp", TEXT)
    table = [
        (["race.sp", "one.journal", "one.journal"], 0, ["the same: 10 entries of 4 processes"]),
        (["race.sp", "one.journal", "race_other.journal"], 1,
         ["the first difference: entry 1 of the process 0/0.0",
          "  2: receive 0#0 of 1, met by entry 1 of 0/0.1, at 15:7",
          "  2: receive 0#0 of 2, met by entry 1 of 0/0.2, at 15:7"]),
        (["race.sp", "one.journal", "race_clash.journal"], 1,
         ["the first difference: entry 1 of the process 0/0.2", "  3: fault F6, at 21:5"]),
        (["race.sp", "other.sp"], 1, ["the first difference: entry 1 of the process 0/0.0",
                                      "  2: send 0#0 of 1, met by nobody, at 1:75", "the outputs differ in line 1",
                                      "  12"]),
        (["two.sp", "three.sp"], 1, ["the first difference: entry 1 of the process 0/0.0",
                                     "  2: send 0#0 of 1, met by entry 1 of 0/0.1, at 7:5",
                                     "  2: send 0#0 of 3, met by entry 1 of 0/0.1, at 7:5",
                                     "the outputs differ in line 1", "  1", "  3"]),
        (["two.sp", "one.journal", "one.journal"], 24, []),
        (["torus.sp", "torus.sp"], 0, ["the same: 2341 entries of 915 processes"]),
    ]
    for words, wanted, lines in table:
        status, told, said = case.tool("compare", words)
        missing = [line for line in lines if line not in told.decode().split("\n")]
        case.check(status == wanted and not missing, "compare %s: %d, %s %s" % (words, status, told, said))
