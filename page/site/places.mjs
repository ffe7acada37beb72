// Places in the text: what the commands `trace` and `where` say of a journal.
// `trace FILE JOURNAL` writes for each entry its place and the value of its message, `where FILE JOURNAL` what each
// process is at behind the last entry: its place, its calls and their variables. At a moment of a run that is what
// `where` says of the journal that ends there.
import { decode, encode } from "./elements.mjs";
import { journalText } from "./notes.mjs";

const LIMITS = ["--ticks", "--depth", "--cells", "--processes", "--channels", "--entries", "--output"];
const QUESTIONS = ["moment", "ending", "hover", "before"]; // their kinds, the most urgent first
const MOST_KEPT = 16777216; // letters of answers
const LATE = 400; // milliseconds, behind which a question that is no longer wanted is broken off
const LINE_FEED = 10;

/** The place and the value of each entry, by the output of `trace`. */
export function readTrace(text) {
  const places = [];
  for (const line of text.split("\n").slice(1)) {
    const match = /^(\d+) (\d+):(\d+) \S+ (?:(?:send|receive) \S+(?: (.*))?|.*)$/.exec(line);
    if (match) places[+match[1]] = { line: +match[2], column: +match[3], value: match[4] || "" };
  }
  return places;
}

/** What a process is at: its name, its place, its condition, and its calls, which are read when they are asked for. */
class Standing {
  constructor([, name, line, column, condition], below) {
    Object.assign(this, { name, line: +line, column: +column, condition, below });
  }

  /** The calls of the process, the innermost first: of each its block, its place (line 0 where it has none) and its
   * variables. */
  get calls() {
    this.read ??= readCalls(this.below);
    return this.read;
  }
}

function readCalls(text) {
  const calls = [];
  for (const line of text.split("\n")) {
    const call = /^ {2}(\S+)(?: (\d+):(\d+))?$/.exec(line);
    const variable = /^ {4}(\S+) (?:= (.*)|(away))$/.exec(line);
    if (call) calls.push({ block: call[1], line: +call[2] || 0, column: +call[3] || 0, variables: [] });
    else if (variable && calls.length) {
      const value = variable[3] ? "with a child" : variable[2];
      calls[calls.length - 1].variables.push({ name: variable[1], value });
    }
  }
  return calls;
}

/** What each process is at, by the output of `where`. */
export function readWhere(text) {
  const heads = [...text.matchAll(/^(0\S*) (\d+):(\d+) (.*)$/gm)];
  return heads.map((head, at) => {
    const end = at + 1 < heads.length ? heads[at + 1].index : text.length;
    return new Standing(head, text.slice(head.index + head[0].length + 1, end));
  });
}

/** A journal as bytes, and where its head and each of its entries end. */
function journalBytes(entries) {
  const journal = encode(journalText(entries));
  const ends = [];
  for (let at = journal.indexOf(LINE_FEED); at >= 0; at = journal.indexOf(LINE_FEED, at + 1)) ends.push(at + 1);
  return { journal, ends };
}

/** Asks the program for the places of one run. `caller` is set when the program is there; it calls it in a worker that
 * nothing else has. */
export class Places {
  constructor() {
    this.caller = null;
    this.run = null;
    this.questions = new Map();
    this.asked = null;
  }

  /** Begins anew with a run: its text, its input as bytes, its options and its entries. */
  begin(text, input, options, entries) {
    this.end();
    const limits = options.filter((_, at) => LIMITS.includes(options[at - (at % 2)]));
    this.run = { bytes: encode(text), input, limits, ...journalBytes(entries) };
    this.text = text;
    this.lines = text.split("\n");
    this.kept = new Map();
    this.letters = 0;
    this.traced = this.ask("trace", entries.length);
  }

  /** Breaks off what is asked, and forgets the run. */
  end() {
    this.run = null;
    for (const { done } of this.questions.values()) done(null);
    this.questions.clear();
    if (this.caller && this.caller.isAtWork) this.caller.stop();
  }

  /** What the program writes of the first `count` entries, or null if it cannot. */
  async ask(command, count) {
    const run = this.run;
    const files = { "text.sp": run.bytes, "run.journal": run.journal.slice(0, run.ends[count]) };
    const result = await this.caller.call([command, "text.sp", "run.journal", ...run.limits], files, run.input);
    return run === this.run && result.output ? decode(result.output) : null;
  }

  /** The place and the value of each entry of the run; none if the program cannot say. */
  async trace() {
    return readTrace((await this.traced) || "");
  }

  /** What each process is at behind the first `count` entries. Of questions of a kind that wait for their turn the
   * newest alone is asked. What comes is null for the others, and if the program cannot say. */
  where(count, kind = "moment") {
    if (!this.run) return Promise.resolve(null);
    if (this.kept.has(count)) return Promise.resolve(this.kept.get(count).processes);
    const waiting = this.questions.get(kind);
    if (waiting && waiting.count === count) return waiting.told;
    if (waiting) waiting.done(null);
    const question = { kind, count, run: this.run };
    question.told = new Promise((done) => {
      question.done = done;
    });
    this.questions.set(kind, question);
    this.askNext(kind);
    return question.told;
  }

  /** What `where` has been told of this moment, or null. */
  known(count) {
    return this.run && this.kept.has(count) ? this.kept.get(count).processes : null;
  }

  /** Asks the questions that wait, one after the other. One that is at work for long gives way to a newer one. */
  async askNext(kind) {
    if (this.asked) {
      if (this.asked.kind === kind && performance.now() - this.asked.since > LATE) this.caller.stop();
      return;
    }
    for (let next = this.take(); next; next = this.take()) {
      this.asked = { kind: next.kind, since: Infinity };
      await this.traced;
      this.asked.since = performance.now();
      next.done(await this.answer(next));
    }
    this.asked = null;
  }

  /** Takes the most urgent question. */
  take() {
    const kind = QUESTIONS.find((it) => this.questions.has(it));
    const question = this.questions.get(kind);
    this.questions.delete(kind);
    return question;
  }

  async answer({ count, run }) {
    if (run !== this.run) return null;
    if (!this.kept.has(count)) {
      const text = await this.ask("where", count);
      if (text) this.keep(count, text);
    }
    return run === this.run ? this.known(count) : null;
  }

  /** Keeps an answer, and forgets the oldest ones if all are too long. */
  keep(count, text) {
    this.kept.set(count, { processes: readWhere(text), letters: text.length });
    this.letters += text.length;
    for (const [oldest, { letters }] of this.kept) {
      if (this.letters <= MOST_KEPT || oldest === count) break;
      this.kept.delete(oldest);
      this.letters -= letters;
    }
  }
}
