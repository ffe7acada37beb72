"""tools/explain trace: its lines are those of the program's trace, and the filters choose among them; --first."""
import os
import re

from cases import EXAMPLES, TOP, copy, read

LINE = re.compile(r" *(\d+) +(\d+:\d+)  (0\S*)(?: .*?)? (?:opens|starts|sends|receives|ends|is|has|meets)\b")


def test(case):
    """All of them."""
    for name in ("race", "philosophers", "torus", "overflow"):
        whole(case, copy(os.path.join(EXAMPLES, name + ".sp"), case.folder))
    copy(os.path.join(EXAMPLES, "race_clash.journal"), case.folder)
    page = read(os.path.join(TOP, "docs/TOOLS.md")).decode()
    told = lines(case, ["--channel", "c", "race.sp", "--workers", "1"])
    case.check(told in page, "the trace of docs/TOOLS.md is another one: %s" % told)
    case.check(lines(case, ["--channel", "0#0", "race.sp", "--workers", "1"]) == told, "a channel by its name")
    for words, wanted in ((["--process", "0/0.1"], ["3", "6"]), (["--line", "15..16"], ["2", "5"]),
                          (["--line=12"], ["0"]), (["--from", "4", "--to", "5"], ["4", "5"]),
                          (["--process=0/0.1", "--line", "19"], ["3"])):
        told = lines(case, words + ["race.sp", "--workers", "1"])
        found = [line.split()[0] for line in told.split("\n")[:-1]]
        case.check(found[:len(wanted)] == wanted, "%s: %s" % (words, told))
    told = lines(case, ["race.sp", "race_clash.journal"])
    case.check("meets the fault F6, contention" in told, "the trace of a journal: %s" % told)
    for words in ([], ["--line", "x", "race.sp"], ["--process"], ["race.sp", "a", "b"]):
        status, _, said = case.tool("explain", ["trace"] + words)
        case.check(status == 20 and said.startswith("explain: "), "trace %s: %d, %s" % (words, status, said[:200]))
    first(case)


def lines(case, words):
    """What explain trace prints."""
    status, told, said = case.tool("explain", ["trace"] + words)
    case.check("Traceback" not in said and status in (0, 3, 4), "trace %s: %d, %s" % (words, status, said[-300:]))
    return told.decode()


def whole(case, name):
    """Each entry, with its place and its process."""
    told = lines(case, [name, "--workers", "1"]).split("\n")[:-1]
    journal = case.file("whole.journal", case.run(["run", name, "--workers", "1", "--show", "journal"])[2])
    wanted = [line.split(" ")[:3] for line in case.run(["trace", name, journal])[1].decode().split("\n")[1:-1]]
    case.check([list(got.groups()) if got else line for got, line in zip(map(LINE.match, told), told)] == wanted,
               "%s: other lines than those of trace: %s" % (name, told[:3]))


def first(case):
    """With --first one line comes after the notes, or none."""
    copy(os.path.join(EXAMPLES, "mistyped.sp"), case.folder)
    for words in (["run", "philosophers.sp", "--workers", "1"], ["check", "mistyped.sp"], ["run", "torus.sp"]):
        _, output, notes = case.run(words)
        _, written, said = case.tool("explain", ["--first"] + words)
        more = said[len(notes):].count("\n")
        case.check(output == written and said.startswith(notes) and more == (words[-1] != "torus.sp"),
                   "--first %s: %s" % (words, said))
