"""Bad words and bad files: each is one clear line with a status of its own, and never a trace of the tool's inside."""
import os

from cases import EXAMPLES, copy

CHAIN = "program c; var x: integer; begin x := " + "+".join(["1"] * 100000) + "; x := x + 9223372036854775807 end."


def test(case):
    """All of them, and the schedules."""
    for name in ("race.sp", "mistyped.sp", "philosophers.sp", "quicksort.sp"):
        copy(os.path.join(EXAMPLES, name), case.folder)
    journal = case.run(["run", "race.sp", "--workers", "1", "--show", "journal"])[2]
    case.file("good.journal", journal)
    case.file("cut.journal", journal[:-3])
    case.file("short.journal", "".join(line + "\n" for line in journal.split("\n")[:4]))
    case.file("none.journal", "what is this\n")
    case.file("bytes.sp", bytes(range(256)))
    table = [
        ("explain", [], 20), ("explain", ["F99"], 20), ("explain", ["--program"], 20),
        ("explain", ["--program", "./nothing", "run", "race.sp"], 21),
        ("explain", ["--program", "race.sp", "run", "race.sp"], 21),
        ("picture", ["nothing.journal"], 22), ("picture", ["none.journal"], 23), ("picture", ["cut.journal"], 23),
        ("picture", ["bytes.sp"], 23), ("picture", ["race.sp"], 23),
        ("picture", ["good.journal", "--text", "philosophers.sp"], 24),
        ("picture", ["good.journal", "--text", "quicksort.sp"], 24),
        ("picture", ["good.journal", "--text", "bytes.sp"], 25),
        ("picture", ["good.journal", "--text", "race.sp", "--entries", "2"], 24),
        ("picture", ["good.journal", "--from", "99"], 20), ("picture", ["good.journal", "--process", "0/7.7"], 20),
        ("picture", ["good.journal", "--from", "x"], 20), ("picture", ["good.journal", "--what"], 20),
        ("picture", ["good.journal", "--out", "no/folder.svg"], 22), ("picture", ["run", "mistyped.sp"], 25),
        ("picture", ["run", "race.sp", "--program", "./nothing"], 21), ("picture", ["run"], 20), ("picture", [], 23),
        ("schedules", [], 20), ("schedules", ["race.sp", "0"], 20), ("schedules", ["nothing.sp", "3"], 22),
        ("schedules", ["mistyped.sp", "3"], 25), ("schedules", ["--journals", "no", "race.sp", "1"], 22),
        ("schedules", ["race.sp", "3", "--show", "all"], 20),
        ("speedup", [], 20), ("speedup", ["race.sp", "3"], 20), ("speedup", ["nothing.sp"], 22),
        ("speedup", ["--workers", "2,4", "race.sp"], 20), ("speedup", ["--workers", "1,x", "race.sp"], 20),
        ("speedup", ["--times", "0", "race.sp"], 20), ("speedup", ["race.sp", "--workers", "2"], 20),
        ("speedup", ["mistyped.sp"], 25), ("speedup", ["--times", "1", "--svg", "no/folder.svg", "race.sp"], 22),
        ("speedup", ["--program", "./nothing", "race.sp"], 21),
        ("compare", [], 20), ("compare", ["race.sp"], 20), ("compare", ["race.sp", "nothing.sp"], 22),
        ("compare", ["race.sp", "mistyped.sp"], 25), ("compare", ["race.sp", "good.journal", "nothing.journal"], 22),
        ("compare", ["race.sp", "good.journal", "cut.journal"], 23),
        ("compare", ["race.sp", "good.journal", "none.journal"], 23),
        ("compare", ["race.sp", "race.sp", "--show", "all"], 20),
    ]
    case.each(lambda it: refused(case, *it), table)
    for tool in ("explain", "picture", "schedules", "speedup", "compare"):
        status, told, _ = case.tool(tool, ["--help"])
        is_whole = told.count(b"Nothing is proved about this tool") == 1 and b"\n  24  " in told
        case.check(status == 0 and is_whole, tool + " --help")
    handed_on(case)
    schedules(case)


def refused(case, tool, words, wanted):
    """One line and this status."""
    status, _, said = case.tool(tool, words)
    case.check(status == wanted and said.count("\n") == 1 and said.startswith(tool + ": "),
               "%s %s: status %d, %s" % (tool, words, status, said[:300]))


def handed_on(case):
    """What the program refuses keeps its notes and status; what is said after them names what is wrong."""
    case.file("chain.sp", CHAIN)
    code = case.run(["build", copy(os.path.join(EXAMPLES, "answer.sp"), case.folder)])[1].decode()
    case.file("word.code", code.replace("const", "konst"))
    case.file("cut.code", code[:-1])
    case.file("rule.code", code.replace("const 6", "neg"))
    for words, wanted in ((["rnu", "race.sp"], "near: run"), (["run", "race.sp", "--tick", "3"], "near: --ticks"),
                          (["run"], "a word is missing"), (["run", "nothing.sp"], "no file: nothing.sp"),
                          (["replay", "race.sp", "cut.journal"], "cut.journal:11:1: the line is cut off"),
                          (["replay", "race.sp", "none.journal"], "first line"),
                          (["replay", "philosophers.sp", "good.journal"], "does not fit this text and input"),
                          (["replay", "race.sp", "short.journal"], "stops before an end"),
                          (["run", "quicksort.sp"], "The input is empty"), (["check", "bytes.sp"], "S1 is broken"),
                          (["run", "chain.sp"], "(F2)"), (["exec", "cut.code"], "cut.code:12:1: the line is cut off"),
                          (["exec", "word.code"], "word.code:4:1: konst is not an instruction (bad code)"),
                          (["exec", "rule.code"], "rule.code:4:1: instruction 1, neg, breaks a rule of code (V2)")):
        status, _, notes = case.run(words)
        got, _, said = case.tool("explain", words)
        case.check(got == status and said.startswith(notes) and wanted in said and "Traceback" not in said,
                   "explain %s: status %d, %s" % (words, got, said[:300]))
    shows = ["end", "timeline", "census", "tree", "waiting", "all", "journal"]
    for words in [["race.sp", "--show=" + show] for show in shows] + [["--show", show, "race.sp"] for show in shows]:
        words = ["run", "--workers", "1"] + words
        status, output, notes = case.run(words)
        got, written, said = case.tool("explain", words)
        right = said.startswith(notes + "race.sp:21:5: race: ")
        case.check(right and (status, output) == (got, written), "explain %s" % words)


def schedules(case):
    """Each kept journal is followed to its end by the program."""
    status, told, said = case.tool("schedules", ["race.sp", "12"])
    case.check(status == 0 and told.startswith(b"12 runs of race.sp: "), "schedules: %s" % said)
    for line in told.decode().splitlines()[2:]:
        path = line.split()[-1]
        got, _, notes = case.run(["replay", "race.sp", path])
        ends = notes.replace("replayed\n", "").split("\n")[0]
        case.check(got in (0, 3) and notes.startswith("replayed") and ends in line, "schedules: %s: %s" % (path, notes))
