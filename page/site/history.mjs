// What a journal says of the processes at each of its entries: who runs, waits, joins or has ended; which offers met.
import { byName, parentOf } from "./notes.mjs";

const isOffer = (entry) => entry.kind === "send" || entry.kind === "receive";

/** How many of these numbers, which go up, are less than a number. */
function countBelow(numbers, number) {
  let [low, high] = [0, numbers.length];
  while (low < high) {
    const middle = (low + high) >> 1;
    if (numbers[middle] < number) low = middle + 1;
    else high = middle;
  }
  return low;
}

/** A journal, with for each offer the one that it met or that met it, and the processes in the order of their start.
 * Of each process it has the entry of its birth, its own entries and that of its end; of each fork the entry that ends
 * it, and the other way round. Entries are named by their indices. */
export class History {
  constructor(entries) {
    this.entries = entries;
    this.partners = new Map();
    this.processes = [{ name: "0", birth: -1 }];
    this.births = new Map([["0", -1]]);
    this.ends = new Map();
    this.own = new Map();
    this.joins = new Map();
    this.forkOfJoin = new Map();
    this.children = new Map();
    this.childrenOfFork = new Map();
    this.channelNames = new Map();
    this.read();
  }

  read() {
    const pending = new Map();
    const opens = new Map();
    const forks = new Map();
    const open = new Map();
    this.entries.forEach((entry, at) => {
      if (!this.own.has(entry.name)) this.own.set(entry.name, []);
      this.own.get(entry.name).push(at);
      if (entry.kind === "fork") this.start(entry, at, forks, open);
      else if (["end", "fault", "laid"].includes(entry.kind)) this.finish(entry, at, open);
      else if (entry.kind === "open") {
        const number = opens.get(entry.name) || 0;
        opens.set(entry.name, number + 1);
        this.channelNames.set(at, `${entry.name}#${number}`);
      } else if (isOffer(entry)) this.offer(entry, at, pending);
    });
  }

  offer(entry, at, pending) {
    const other = pending.get(entry.argument);
    if (other !== undefined && this.entries[other].kind !== entry.kind) {
      this.partners.set(at, other);
      this.partners.set(other, at);
      pending.delete(entry.argument);
    } else pending.set(entry.argument, at);
  }

  /** The names of all processes, in their order. */
  get namesInOrder() {
    this.sorted ??= this.processes.map(({ name }) => name).sort(byName);
    return this.sorted;
  }

  /** The processes of a fork; `open` has of each process its last fork, and how many of its children have not ended. */
  start(entry, at, forks, open) {
    const fork = forks.get(entry.name) || 0;
    forks.set(entry.name, fork + 1);
    const names = [];
    for (let child = 0; child < +entry.argument; child++) names.push(`${entry.name}/${fork}.${child}`);
    for (const name of names) {
      this.processes.push({ name, birth: at });
      this.births.set(name, at);
    }
    open.set(entry.name, { at, left: names.length });
    this.childrenOfFork.set(at, names);
    this.children.set(entry.name, [...(this.children.get(entry.name) || []), ...names]);
  }

  /** The end of a process, which may be the last one that its parent waits for. */
  finish(entry, at, open) {
    this.ends.set(entry.name, at);
    const fork = entry.kind === "end" && entry.name !== "0" ? open.get(parentOf(entry.name)) : null;
    if (!fork || --fork.left > 0) return;
    this.joins.set(fork.at, at);
    this.forkOfJoin.set(at, fork.at);
  }

  /** The process that sends and the one that receives of two offers that met, by their entries. */
  message(at) {
    const other = this.partners.get(at);
    if (other === undefined) return null;
    const [sent, received] = this.entries[at].kind === "send" ? [at, other] : [other, at];
    return { sent, received, first: Math.min(at, other), last: Math.max(at, other) };
  }

  /** What each process is at behind the first `count` entries: a Map of names to { kind, channel, since }. Kinds: runs,
   * send, receive, join, end, fault, laid. */
  stateAfter(count) {
    const born = this.processes.filter(({ birth }) => birth < count);
    return new Map(born.map((process) => [process.name, this.stateOf(process, count)]));
  }

  stateOf({ name, birth }, count) {
    const own = this.own.get(name) || [];
    const at = own[countBelow(own, count) - 1];
    if (at === undefined) return { kind: "runs", since: birth };
    const entry = this.entries[at];
    if (["end", "fault", "laid"].includes(entry.kind)) return { kind: entry.kind, fault: entry.argument, since: at };
    if (isOffer(entry) && !this.isMet(at, count)) return { kind: entry.kind, channel: entry.argument, since: at };
    if (isOffer(entry)) return { kind: "runs", since: Math.max(at, this.partners.get(at)) };
    if (entry.kind !== "fork") return { kind: "runs", since: at };
    const joined = this.joins.get(at);
    return joined < count ? { kind: "runs", since: joined } : { kind: "join", since: at };
  }

  /** Whether an offer has been met behind the first `count` entries. */
  isMet(at, count) {
    return this.partners.has(at) && this.partners.get(at) < count;
  }

  /** The offers that wait on their channels behind the first `count` entries, by their indices: each the last entry of
   * its process, or the last one before it was stopped. */
  pendingAfter(count) {
    const indices = [];
    for (const own of this.own.values()) {
      const many = countBelow(own, count);
      const last = many > 0 && this.entries[own[many - 1]].kind === "laid" ? many - 2 : many - 1;
      const at = own[last];
      if (at !== undefined && isOffer(this.entries[at]) && !this.isMet(at, count)) indices.push(at);
    }
    return indices.sort((one, other) => one - other);
  }

  /** For each entry the row in a picture in which an entry stands right below those that had to come before it. */
  rowsByCause() {
    this.rows ??= this.findRows();
    return this.rows;
  }

  findRows() {
    const rows = [];
    const last = new Map([["0", -1]]);
    this.entries.forEach((entry, at) => {
      const before = [last.get(entry.name) ?? -1];
      const other = this.partners.get(at);
      if (other !== undefined && other < at) before.push(rows[other]);
      const row = Math.max(...before) + 1;
      rows.push(row);
      last.set(entry.name, row);
      if (other !== undefined && other < at) {
        const partner = this.entries[other].name;
        last.set(partner, Math.max(last.get(partner), row));
      }
      if (entry.kind === "fork") for (const name of this.childrenOfFork.get(at)) last.set(name, row);
      if (entry.kind === "end" && entry.name !== "0") {
        const parent = parentOf(entry.name);
        last.set(parent, Math.max(last.get(parent) ?? -1, row));
      }
    });
    return rows;
  }
}
