"""tools/schedules: many runs of one text, and how they end."""
from __future__ import annotations

import os
import time
from typing import NamedTuple, Sequence

from .journal import journal_text, read_record
from .program import PATIENCE, Answer, Caller, progress, split_words, take_options
from .values import counted
from .errors import BAD_WORDS, ToolError, put_out, read_file, read_input, say, write_file

HELP = """usage: tools/schedules [--program PROGRAM] [--journals FOLDER] FILE N [OPTIONS of `superpascal run`] <INPUT

Runs the text N times, with 2, 4 and 8 workers in turn if --workers is not given, and prints a table: the different
ends, verdicts and outputs, with how often each came. Of each kind one journal is kept in FOLDER (the current one) as
NAME.1.journal and so on, which `superpascal replay` takes. If a verdict is a race, the schedule in which its two
offers clash is one more row: that of `superpascal witness`. What did not come in N runs may still come: a verdict
`ordered` says that nothing else can. Ctrl-C ends it with the table of the runs so far.

"""
WORKERS = ("2", "4", "8")
MOST = 100_000
WIDE = 44


class Kind(NamedTuple):
    """What is the same in runs of one kind: the end, the word of the verdict, and the output."""

    end: str
    verdict: str
    output: bytes


def main(words: list[str]) -> int:
    """Prints the table of the runs."""
    own = take_options(words, ("--program", "--journals"))
    asked = split_words(["run"] + words)
    if len(asked.plain) != 2 or not asked.plain[1].isdigit() or not 1 <= int(asked.plain[1][:9]) <= MOST:
        raise ToolError(BAD_WORDS, "wanted are FILE and N, from 1 to %d; --help says more" % MOST)
    if "--show" in asked.options:
        raise ToolError(BAD_WORDS, "--show is not for this tool")
    file, count = asked.plain[0], int(asked.plain[1])
    read_file(file)
    options = [word for name, value in asked.options.items() if name != "--workers" for word in (name, value)]
    workers = (asked.options["--workers"],) if "--workers" in asked.options else WORKERS
    caller = Caller(own.get("--program"))
    data = read_input()
    seen, kept = many(caller, file, count, options, workers, data)
    witness = clash(caller, file, options, data) if any(kind.verdict.startswith("race") for kind in seen) else ""
    folder = own.get("--journals") or "."
    put_out(table(file, seen, kept, witness, folder, sum(seen.values())).encode())
    return 0


def many(caller: Caller, file: str, count: int, options: list[str], workers: Sequence[str],
         data: bytes) -> tuple[dict[Kind, int], dict[Kind, str]]:
    """How often each kind of run came, and a journal of each."""
    seen: dict[Kind, int] = {}
    kept: dict[Kind, str] = {}
    begun = time.monotonic()
    for number in range(count):
        words = ["run", "--show", "timeline", "--workers", workers[number % len(workers)], *options, "--", file]
        try:
            answer = caller.ran(words, data)
        except KeyboardInterrupt:
            if not seen:
                raise
            say("schedules: stopped after %d of %d runs\n" % (number, count))
            break
        if time.monotonic() - begun >= PATIENCE:
            progress("%d of %d runs" % (number + 1, count))
            begun = time.monotonic()
        kind = kind_of(answer)
        seen[kind] = seen.get(kind, 0) + 1
        if kind not in kept:
            kept[kind] = journal_text(read_record(answer.notes).entries)
    return seen, kept


def kind_of(answer: Answer) -> Kind:
    """The kind of a run: two races differ in their channel, and not in their indices."""
    head = answer.notes.partition("\ntimeline\n")[0].split("\n")
    return Kind("; ".join(head[:-1]), " ".join(head[-1].split(" ")[:3]), answer.output)


def clash(caller: Caller, file: str, options: list[str], data: bytes) -> str:
    """The journal of the schedule in which the two offers of a race clash."""
    answer = caller(["witness", "--workers", "1", *options, "--", file], data)
    return answer.output.decode() if answer.status in (0, 3, 4) else ""


def table(file: str, seen: dict[Kind, int], kept: dict[Kind, str], witness: str, folder: str, count: int) -> str:
    """The table, the most frequent kind first; writes the journals."""
    name = os.path.splitext(os.path.basename(file))[0]
    rows = [("runs", "end", "verdict", "output", "journal")]
    for number, kind in enumerate(sorted(seen, key=lambda it: (-seen[it], it)), 1):
        path = os.path.join(folder, "%s.%d.journal" % (name, number))
        write_file(path, kept[kind].encode())
        rows.append((str(seen[kind]), short(kind.end), kind.verdict, shown(kind.output), path))
    if witness:
        path = os.path.join(folder, "%s.witness.journal" % name)
        write_file(path, witness.encode())
        process, _, fault = witness.split("\n")[-2].partition(" ")
        rows.append(("-", "%s %s" % (fault, process), "unjudged", "(by witness)", path))
    sizes = [max(len(row[column]) for row in rows) for column in range(4)]
    said = "".join("  ".join(cell.ljust(size) for cell, size in zip(row, sizes + [0])).rstrip() + "\n" for row in rows)
    return "%d runs of %s: %s\n%s" % (count, file, counted(len(seen), "kind"), said)


def short(text: str) -> str:
    """A text that is not too wide for a column."""
    return text if len(text) <= WIDE else text[:WIDE - 1] + "…"


def shown(output: bytes) -> str:
    """An output on one line."""
    text = output.decode("utf-8", "backslashreplace").replace("\\", "\\\\")
    return short(text.replace("\n", "\\n").replace("\t", "\\t"))
