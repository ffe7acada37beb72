"""tools/explain: runs the program and says in words what its short lines mean."""
from __future__ import annotations

import difflib
import os
import re
import sys
from typing import Optional

from . import refusals, rule_pages, trace_lines
from .ends import Ends
from .file_words import bad_code, bad_journal, unfit_journal
from .journal import Journal, journal_in
from .followed import Followed
from .program import Answer, Caller, Words, limit_words, split_words, take_anywhere, take_option
from .source import Source
from .errors import BAD_WORDS, ToolError, put_out, read_file, read_input, say

HELP = """usage: tools/explain [--program PROGRAM] [--first] COMMAND ..
  tools/explain run FILE [OPTIONS] <INPUT          as `superpascal run`, and then why it ended so
  tools/explain replay FILE JOURNAL [..] <INPUT    as `superpascal replay`, and then the same of this journal
  tools/explain witness FILE [..] <INPUT           as `superpascal witness`, and then the clash that it shows
  tools/explain trace [FILTERS] FILE [JOURNAL] [..] <INPUT   the run, or the one of a journal, line by line: place,
                                                   process with its call, channel by its variable, value. Filters:
                                                   --process NAME, --channel NAME, --line N or N..N, --from N, --to N
  tools/explain check FILE                         as `superpascal check`, and then why the text is refused; so with
                                                   code, build, sets and format
  tools/explain exec FILE                          as `superpascal exec`, and then why the code file is not accepted
  tools/explain RULE, tools/explain FAULT          what the language says of a rule or a fault, as I1 or F6

The output, the notes and the status of the program stay as they are; what is added goes to standard error after them.
With --first that is the first line alone: the place and the cause.
The program is PROGRAM, else the one that SUPERPASCAL names, else ./superpascal of this repository.

"""
SHOWS = ("end", "timeline", "census", "tree", "waiting", "all", "journal")
RUNS = ("run", "replay", "witness", "exec")


def main(words: list[str]) -> int:
    """Explains one call of the program; gives its status."""
    path = take_option(words, "--program")
    is_first = words[:1] == ["--first"]
    del words[:is_first]
    if not words:
        raise ToolError(BAD_WORDS, "a command is wanted; --help lists them")
    if len(words) == 1 and re.fullmatch(r"[A-Za-z]\d+", words[0]):
        found = rule_pages.sentence(words[0].upper())
        if found is None:
            raise ToolError(BAD_WORDS, "no rule and no fault is called %s" % words[0])
        put_out(found.encode())
        return 0
    if words[0] == "trace":
        return trace(words, Caller(path))
    return explain(words, Caller(path), is_first)


def trace(words: list[str], caller: Caller) -> int:
    """A run line by line; the status is that of the run, or of `trace` for a journal."""
    given = take_anywhere(words, trace_lines.FILTERS)
    asked = split_words(["run"] + words[1:])
    if len(asked.plain) not in (1, 2):
        raise ToolError(BAD_WORDS, "trace wants a FILE and perhaps a JOURNAL; --help says more")
    data = input_of(asked, caller)
    if len(asked.plain) == 2:
        answer = caller(["replay", *words[1:]], data)
        journal = journal_in(read_file(asked.plain[1]))[1]
        if not answer.notes.startswith("replayed"):
            say(answer.notes)
            say(meaning(asked._replace(command="replay"), answer, "", data, caller))
            return answer.status
    else:
        answer = caller(["run", "--show", "timeline", *words[1:]], data)
        if answer.status not in (0, 3, 4):
            say(answer.notes)
            say(meaning(asked, answer, "", data, caller))
            return answer.status
        journal = journal_in(answer.notes.encode())[1]
    wanted = trace_lines.filters_of(given, journal.count)
    run = Followed(caller, asked.plain[0], asked.options, data, journal)
    trace_lines.show(trace_lines.TraceLines(run).chosen(wanted))
    say(answer.notes.partition("\ntimeline\n")[0].rstrip("\n") + "\n")
    return answer.status


def explain(words: list[str], caller: Caller, is_first: bool) -> int:
    """The program's own answer, and after it what it means, or the first line of that."""
    asked = split_words(words)
    data = input_of(asked, caller)
    show, told = shown_as(words, asked)
    answer = caller(told, data)
    timeline = ""
    if show is not None and answer.status in (0, 3, 4) and "\ntimeline\n" in answer.notes:
        timeline = answer.notes
        answer = Answer(answer.status, answer.output, as_asked(timeline, show))
    put_out(answer.output)
    say(answer.notes)
    try:
        said = meaning(asked, answer, timeline, data, caller)
        say(said.partition("\n")[0] + "\n" if is_first and said else said)
    except ToolError as error:
        say("explain: %s\n" % error)
    return answer.status


def input_of(asked: Words, caller: Caller) -> bytes:
    """The standard input, if the command reads it. None is read for words or a file that the program refuses: what
    writes the input may wait for the answer."""
    if asked.command not in RUNS or bad_words(asked) or is_refused(asked, caller):
        return b""
    if sys.stdin is not None and not sys.stdin.closed and sys.stdin.isatty():
        say("explain: reading the input: Ctrl-D ends it\n")
    return read_input()


def is_refused(asked: Words, caller: Caller) -> bool:
    """Whether the text or the code file is refused. That of a code file comes out in its first tick."""
    file = ["--", asked.plain[0]]
    if asked.command == "exec":
        return caller(["exec", "--ticks", "1", "--workers", "1", *file]).status not in (0, 3, 4)
    return caller(["check", *file]).status != 0


def shown_as(words: list[str], asked: Words) -> tuple[Optional[str], list[str]]:
    """For `run`: what --show asks for, and the words with which the timeline is reported as well."""
    if asked.command != "run":
        return None, words
    before = words[:words.index("--")] if "--" in words else words
    places = [at for at, word in enumerate(before) if word == "--show" or word.startswith("--show=")]
    show = asked.options.get("--show", "end")
    if len(places) > 1 or show not in SHOWS:
        return None, words
    told = ["--show", "timeline" if show in ("end", "timeline", "journal") else "all"]
    rest = words[1:]
    if places:
        at = places[0] - 1
        del rest[at:at + (1 if "=" in rest[at] else 2)]
    return show, words[:1] + told + rest


def as_asked(notes: str, show: str) -> str:
    """The notes as the program would have written them; these have the timeline, and all reports if one is wanted."""
    if show in ("timeline", "all"):
        return notes
    head, _, rest = notes.partition("\ntimeline\n")
    head += "\n"
    if show == "end":
        return head
    if show == "journal":
        return "superpascal journal 2\n" + "".join(line.partition(" ")[2] for line in rest.splitlines(keepends=True))
    parts = re.split(r"^(census|tree|waiting)\n", rest, flags=re.M)
    return head + "".join(name + "\n" + text for name, text in zip(parts[1::2], parts[2::2]) if name == show)


def meaning(asked: Words, answer: Answer, timeline: str, data: bytes, caller: Caller) -> str:
    """What the answer means."""
    notes = answer.notes
    got = re.match(r"refused (\w+) (\d+):(\d+)\n", notes)
    if got and asked.plain:
        text = read_file(asked.plain[0])
        place = (int(got[2]), int(got[3]))
        return refusals.explained(Source(asked.plain[0], text), text, got[1], place, caller)
    if notes == "bad words\n":
        return bad_words(asked) + rule_pages.usage()
    if notes == "read fault\n":
        missing = ["  no file: %s\n" % it for it in asked.plain if not os.path.isfile(it)]
        return "".join(missing) or "  a file or the input cannot be read\n"
    if asked.command == "run" and timeline:
        return run_told(asked, answer, timeline, data, caller)
    if asked.command == "witness" and answer.status in (0, 3, 4) and answer.output:
        return followed(asked, journal_in(answer.output)[1], data, b"", caller)
    if asked.command == "replay" and len(asked.plain) == 2:
        return replay_told(asked, answer, data, caller)
    if asked.command == "exec" and answer.status == 10 and asked.plain:
        said = bad_code(asked.plain[0], read_file(asked.plain[0]), notes)
        if said:
            return said
    found = rule_pages.status_sentence(notes.rstrip("\n")) if answer.status > 4 else None
    return "  %s\n" % found if found else ""


def bad_words(asked: Words) -> str:
    """What may be wrong with the words."""
    commands = re.findall(r"^  ([a-z]+) [A-Z]", rule_pages.usage(), re.M)
    options = re.findall(r"^  --([a-z]+) ", rule_pages.usage(), re.M)
    if asked.command not in commands:
        near = difflib.get_close_matches(asked.command, commands, 1)
        return "  no command: %s%s\n" % (asked.command, "; near: " + near[0] if near else "")
    said = ""
    for name in asked.options:
        if name[2:] not in options:
            near = difflib.get_close_matches(name[2:], options, 1)
            said += "  no option: %s%s\n" % (name, "; near: --" + near[0] if near else "")
    if not asked.plain:
        said += "  a word is missing after %s\n" % asked.command
    return said


def run_told(asked: Words, answer: Answer, timeline: str, data: bytes, caller: Caller) -> str:
    """The end of a run, and its race with the schedule in which it comes to a clash."""
    head, journal = journal_in(timeline.encode())
    race = re.fullmatch(r"race \w+ \S+ (\d+) (\d+)", head[-1] if head else "")
    if answer.status == 0 and race is None:
        return ""
    said = followed(asked, journal, data, answer.output, caller, (int(race[1]), int(race[2])) if race else None)
    if race is not None:
        words = ["witness", "--workers", "1", *limit_words(asked.options)]
        found = caller(words + ["--", asked.plain[0]], data)
        if found.output:
            count = found.output.count(b"\n") - 1
            fault = found.output.decode("latin1").split("\n")[-2]
            said += "  Such a schedule, of %d entries to `%s`, is written by: superpascal %s %s\n" % (
                count, fault, " ".join(words), asked.plain[0])
    return said


def followed(asked: Words, journal: Journal, data: bytes, output: bytes, caller: Caller,
             race: Optional[tuple[int, int]] = None) -> str:
    """How a journal ends, in words."""
    return Ends(Followed(caller, asked.plain[0], asked.options, data, journal), output).told(race)


def replay_told(asked: Words, answer: Answer, data: bytes, caller: Caller) -> str:
    """A journal that is followed, or why it is not."""
    text = read_file(asked.plain[1])
    got = re.match(r"bad journal (\d+)\n", answer.notes)
    if got:
        return bad_journal(asked.plain[1], text, int(got[1]))
    journal = journal_in(text)[1]
    if answer.notes.startswith("replayed"):
        return followed(asked, journal, data, answer.output, caller)
    got = re.match(r"journal unfit (\d+)\n", answer.notes)
    if got:
        run = Followed(caller, asked.plain[0], asked.options, data, journal)
        return unfit_journal(asked.plain[1], text, int(got[1]), instead(run, int(got[1])))
    found = rule_pages.status_sentence(answer.notes.rstrip("\n"))
    return "  %s\n" % found if found else ""


def instead(run: Followed, at: int) -> str:
    """Why an entry does not fit: what its process does there instead."""
    entry, state = run.journal.entry(at), run.state(at)
    process = state.get(entry.name)
    if process is None:
        is_known = run.journal.last_of(entry.name) < at and any(
            run.journal.entry(it).name == entry.name for it in range(at))
        why = "%s has ended" % entry.name if is_known else "there is no process %s that has not ended" % entry.name
    elif process.does == "join":
        why = "%s waits for its children at %d:%d" % ((entry.name,) + process.place)
    elif process.waits:
        why = "%s waits at %d:%d to %s on %s" % ((entry.name,) + process.place + (process.does, process.argument))
    elif process.does.startswith("runs"):
        why = "%s goes on at %d:%d to something else" % ((entry.name,) + process.place)
    else:
        why = "%s was stopped by a fault" % entry.name
    return "%s, and %s" % (entry, why)
