"""tools/speedup: how long a run takes with more workers, and what no number of workers can beat."""
from __future__ import annotations

import os
import time
from functools import partial
from typing import Callable, NamedTuple, Optional

from .chain import TICKS, each_pause, longest_chain
from .journal import Entry, Record, read_record
from .plot import plotted
from .program import Answer, Caller, split_words, take_options
from .values import counted
from .errors import BAD_WORDS, ToolError, put_out, read_file, read_input, write_file

HELP = """usage: tools/speedup [OPTIONS] FILE [OPTIONS of `superpascal run`] <INPUT

Runs the text with 1, 2, 4 and 8 workers and prints a table of times: of each the best of three. Below it stands the
longest chain of the run: entries of its journal of which each had to wait for the one before it. No number of workers
makes a run shorter than this chain. Computing is counted by the pauses that a process makes after each 100,000 ticks;
in a run with fewer than ten pauses only entries are counted.

  --workers LIST   the numbers of workers, as 1,2,3,4; 1 must be among them
  --times N        N runs with each, 1 to 100
  --svg FILE       draws the table as a plot
  --program FILE   the program, else that of SUPERPASCAL, else ./superpascal of this repository

"""
OWN = ("--workers", "--times", "--svg", "--program")
FEW_PAUSES = 10
SHORT = 0.2


class Asked(NamedTuple):
    """What is run: a text with options and an input, by a program."""

    caller: Caller
    file: str
    options: list[str]
    data: bytes

    def run(self, workers: int, *more: str) -> Answer:
        """A run that was made."""
        words = ["run", *more, "--workers", str(workers), *self.options, "--", self.file]
        return self.caller.ran(words, self.data)

    def check(self) -> Answer:
        """A check of the text alone."""
        return self.caller.ran(["check", "--", self.file])


class Table(NamedTuple):
    """The best time for each number of workers, in seconds, and that of a check of the text alone."""

    seconds: dict[int, float]
    check: float
    times: int

    def speed(self, workers: int) -> float:
        """How many times as fast as with one worker."""
        return self.seconds[1] / max(self.seconds[workers], 1e-6)


def main(words: list[str]) -> int:
    """Prints the table, and draws the plot if one is asked for."""
    own = take_options(words, OWN)
    workers, times = numbers_of(own)
    asked = split_words(["run"] + words)
    if len(asked.plain) != 1 or "--show" in asked.options or "--workers" in asked.options:
        raise ToolError(BAD_WORDS, "wanted is one FILE, without --show, and --workers before it; --help says more")
    read_file(asked.plain[0])
    options = [word for name, value in asked.options.items() for word in (name, value)]
    what = Asked(Caller(own.get("--program")), asked.plain[0], options, read_input())
    said, bound = chain_words(read_record(what.run(1, "--show", "timeline").notes))
    table = measure(what, workers, times)
    put_out((table_text(table) + said).encode())
    if own.get("--svg"):
        points = [(number, table.speed(number)) for number in workers]
        write_file(str(own["--svg"]), plotted(os.path.basename(what.file), points, bound).encode())
    return 0


def numbers_of(own: dict[str, Optional[str]]) -> tuple[list[int], int]:
    """The numbers of workers, and how many runs are made with each."""
    workers, times = (own.get("--workers") or "1,2,4,8").split(","), own.get("--times") or "3"
    if not all(word.isdigit() and 1 <= int(word[:9]) <= 64 for word in workers) or "1" not in workers:
        raise ToolError(BAD_WORDS, "--workers wants numbers from 1 to 64 with commas between them, and 1 among them")
    if not times.isdigit() or not 1 <= int(times[:9]) <= 100:
        raise ToolError(BAD_WORDS, "--times wants a number from 1 to 100")
    return sorted({int(word) for word in workers}), int(times)


def measure(what: Asked, workers: list[int], times: int) -> Table:
    """The times. The numbers of workers take turns, so that other work on the machine hits all alike."""
    best = {number: float("inf") for number in workers}
    check = float("inf")
    for _ in range(times):
        check = min(check, seconds_of(what.check))
        for number in workers:
            best[number] = min(best[number], seconds_of(partial(what.run, number)))
    return Table(best, check, times)


def seconds_of(call: Callable[[], Answer]) -> float:
    """How long a call takes."""
    begun = time.monotonic()
    call()
    return time.monotonic() - begun


def table_text(table: Table) -> str:
    """The table, and what its times have in them."""
    said = "workers  seconds  times as fast\n"
    for number, seconds in sorted(table.seconds.items()):
        said += "%7d  %7.3f  %13.2f\n" % (number, seconds, table.speed(number))
    if table.seconds[1] < SHORT:
        said += "(too short to tell much: let the program do more)\n"
    runs = "one run each" if table.times == 1 else "the best of %d runs each" % table.times
    processors = os.cpu_count() or 1
    return said + "%s, with %.3f s to begin and to check the text; this machine has %s\n" % (
        runs, table.check, counted(processors, "processor"))


def chain_words(record: Record) -> tuple[str, float]:
    """What the journal says of any number of workers, and how many times as fast it lets a run be."""
    entries = record.entries
    pauses = sum(each_pause(entry) for entry in entries)
    head = ", ".join(line for line in record.head if not line.startswith("waits "))
    sizes = (counted(processes(entries), "process"), counted(len(entries), "entry"), counted(pauses, "pause"))
    said = "the run: %s; %s\n" % (head, ", ".join(sizes))
    chain = longest_chain(entries)
    bound = len(entries) / max(chain.weight, 1)
    said += "the longest chain: %d of %s" % (chain.weight, counted(len(entries), "entry"))
    if pauses >= FEW_PAUSES:
        computing = longest_chain(entries, each_pause).weight
        bound = pauses / max(computing, 1)
        said += "; and of computing: %d of %d pauses of %s ticks" % (computing, pauses, format(TICKS, ","))
    said += "\nso no number of workers makes it more than %.1f times as fast\n" % bound
    if any(line.startswith("race") for line in record.head):
        said += "(of this schedule: the verdict is race, so others may have other chains)\n"
    return said, bound


def processes(entries: list[Entry]) -> int:
    """How many processes there were."""
    return 1 + sum(int(entry.argument) for entry in entries if entry.kind == "fork")
