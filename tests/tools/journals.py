"""Journals of the gallery's runs: the verdict by the entries, and what explain says of disturbed ones."""
import random
import re

from cases import copy, gallery

from superpascal_tools.journal import Entry, journal_text, racing, read_record

SEED = 20
DISTURBED = 4


def test(case):
    """All runs of the gallery, with 1, 2 and 8 workers."""
    chance = random.Random(SEED)
    runs = [(name, path, data) for name, path, data in gallery() if case.run(["check", path])[0] == 0]
    disturbed = []
    for name, path, data in runs:
        for workers in ("1", "2", "8"):
            notes = case.run(["run", path, "--workers", workers, "--show", "timeline"], data)[2]
            record = read_record(notes)
            case.same(verdict_of(record), record.head[-1], "%s %s: the verdict" % (name, workers))
        file = copy(path, case.folder)
        for number in range(DISTURBED):
            disturbed.append(("%s %d" % (name, number), file, data, disturb(list(record.entries), chance)))
    case.each(lambda it: explained(case, *it), disturbed)


def verdict_of(record):
    """The line of the verdict, by the entries alone."""
    if any(entry.kind == "fault" for entry in record.entries):
        return "unjudged"
    pair = racing(record.entries)
    return "race %s %s %d %d" % (record.entries[pair[0]][1:] + pair) if pair else "ordered"


def disturb(entries, chance):
    """One entry is taken out, moved, doubled, cut off or given to another process."""
    at = chance.randrange(len(entries))
    way = chance.randrange(6)
    if way == 0:
        del entries[at]
    elif way == 1:
        entries.insert(chance.randrange(len(entries)), entries.pop(at))
    elif way == 2:
        entries.insert(chance.randrange(len(entries)), entries[at])
    elif way == 3:
        del entries[at:]
    elif way == 4:
        entries[at] = entries[at]._replace(name=chance.choice(entries).name)
    else:
        entries.insert(at, Entry(entries[at].name, chance.choice(["pause", "laid", "end", "open"]), ""))
    return entries


def explained(case, what, file, data, entries):
    """The answer is that of `replay`, and the words name the entry that does not fit, or the place of the end."""
    path = case.file(what.replace(" ", "_") + ".journal", journal_text(entries))
    status, output, notes = case.run(["replay", file, path], data)
    got, written, said = case.tool("explain", ["replay", file, path], data)
    case.check((status, output) == (got, written) and said.startswith(notes), what + ": another answer of replay")
    words = said[len(notes):]
    case.check("Traceback" not in words and "explain:" not in words, "%s: %s" % (what, words[-300:]))
    unfit = re.match(r"journal unfit (\d+)\n", notes)
    if unfit:
        line = r"\S+:%d:1: entry %s does not fit this text and input: " % (int(unfit[1]) + 2, unfit[1])
        case.check(re.match(line, words), "%s: a disturbed journal: %s" % (what, words[:200]))
    elif notes.startswith("bad journal"):
        case.check(re.match(r"\S+:%s:1: " % notes.split()[2], words), "%s: a bad journal: %s" % (what, words[:200]))
    elif "\ndone\n" not in notes:
        place = re.match(re.escape(file) + r":(\d+:\d+): ", words)
        states = case.run(["where", file, path], data)[1].decode("latin1")
        case.check(place and " %s " % place[1] in states, "%s: a place that is none of where: %s" % (what, words[:200]))
