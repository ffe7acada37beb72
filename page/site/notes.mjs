// Reading what the program prints: the notes of a call, entries of journals, and names.

const NAME = "0(?:/\\d+\\.\\d+)*";
const KINDS = `(fork) (\\d+)|(send|receive) (${NAME}#\\d+)|(fault) (F\\d+)|(open|end|laid|pause)`;
const ENTRY = new RegExp(`^(${NAME}) (?:${KINDS})$`);

/** The entry that a line spells: its process, its kind, and the count of children, the channel or the fault. */
export function entryOf(line) {
  const match = ENTRY.exec(line);
  if (!match) return null;
  const [, name, fork, children, offer, channel, faults, fault, other] = match;
  return { name, kind: fork || offer || faults || other, argument: children || channel || fault || "" };
}

export function lineOf(entry) {
  return [entry.name, entry.kind, entry.argument].filter(Boolean).join(" ");
}

/** The entries as a journal that `replay` takes. */
export function journalText(entries) {
  return "superpascal journal 2\n" + entries.map((entry) => lineOf(entry) + "\n").join("");
}

/** The entries of a journal as far as its lines spell some. */
export function entriesOf(journal) {
  const entries = [];
  for (const line of journal.split("\n").slice(1)) {
    const entry = entryOf(line);
    if (!entry) break;
    entries.push(entry);
  }
  return entries;
}

/** The report of this name behind the verdict, as its lines. */
function reportOf(lines, name) {
  const begin = lines.indexOf(name);
  if (begin < 0) return [];
  const end = lines.findIndex((line, at) => at > begin && ["timeline", "census", "tree", "waiting"].includes(line));
  return lines.slice(begin + 1, end < 0 ? undefined : end);
}

function verdictOf(lines) {
  for (const line of lines) {
    const race = /^race (send|receive) (\S+) (\d+) (\d+)$/.exec(line);
    if (race) return { kind: "race", way: race[1], channel: race[2], earlier: +race[3], later: +race[4] };
    if (line === "ordered" || line === "unjudged") return { kind: line };
  }
  return null;
}

function endOf(lines) {
  for (const line of lines) {
    const fault = /^fault (F\d+) (\S+)$/.exec(line);
    if (fault) return { kind: "fault", fault: fault[1], name: fault[2] };
    if (line === "deadlock") {
      const waits = lines.map((it) => /^waits (\S+) (send|receive) (\S+)$/.exec(it)).filter(Boolean);
      return { kind: "deadlock", waits: waits.map(([, name, way, channel]) => ({ name, way, channel })) };
    }
    if (line === "done" || line === "no end") return { kind: line };
  }
  return null;
}

/** What the notes of a call say: the refused rule, or the end, the verdict and the entries of the timeline. */
export function readNotes(notes) {
  const lines = notes.split("\n").slice(0, -1);
  const refused = /^refused (\w+) (\d+):(\d+)$/.exec(lines[0] || "");
  if (refused) return { refused: { rule: refused[1], line: +refused[2], column: +refused[3] }, head: lines };
  const begin = lines.findIndex((line) => ["timeline", "census", "tree", "waiting"].includes(line));
  const head = begin < 0 ? lines : lines.slice(0, begin);
  const timeline = reportOf(lines, "timeline").map((line) => entryOf(line.slice(line.indexOf(" ") + 1)));
  return {
    head,
    refused: null,
    end: endOf(head),
    verdict: verdictOf(head),
    isReplayed: head[0] === "replayed",
    entries: lines.includes("timeline") ? timeline.filter(Boolean) : null,
  };
}

/** By what the names of processes are in order: the pairs of numbers. */
export function pairsOf(name) {
  return name.split("/").slice(1).map((pair) => pair.split(".").map(Number));
}

export function byName(one, other) {
  const [a, b] = [pairsOf(one), pairsOf(other)];
  for (let i = 0; i < Math.min(a.length, b.length); i++) {
    const differs = a[i][0] - b[i][0] || a[i][1] - b[i][1];
    if (differs) return differs;
  }
  return a.length - b.length;
}

export function parentOf(name) {
  return name.slice(0, name.lastIndexOf("/"));
}
