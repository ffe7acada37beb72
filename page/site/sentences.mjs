// What runs, entries and verdicts are called in words.

/** What a rule or a fault says, by the tables of the language: a name, a sentence, an example. */
export function rowOf(handbook, name) {
  const row = handbook[name];
  if (!row) return null;
  const [first, second, example] = row;
  return name.startsWith("F")
    ? { title: `${name}, ${first}`, says: `It comes exactly where: ${second}.`, example }
    : { title: name, says: `It is broken where: ${first}. Its place: ${second}.`, example };
}

function offerSentence(history, at, entry, value) {
  const partnerVerb = entry.kind === "send" ? "receives" : "sends";
  const other = history.partners.get(at);
  const what = `${value ? ` ${value}` : ""} on ${entry.argument}`;
  if (other === undefined) return `offers to ${entry.kind}${what}; nobody ${partnerVerb}`;
  const partner = history.entries[other].name;
  if (other < at) return `${entry.kind}s${what} and meets ${partner}, which waited since entry ${other}`;
  return `offers to ${entry.kind}${what}; ${partner} ${partnerVerb} at entry ${other}`;
}

const nameOf = (fault, handbook) => (handbook[fault] ? `, ${handbook[fault][0]}` : "");

function forkWords(names) {
  if (names.length === 0) return "no process, and waits for ever";
  if (names.length === 1) return `a process, ${names[0]}, and waits for it`;
  return `${names.length} processes, ${names[0]} to ${names[names.length - 1]}, and waits for them`;
}

/** What the process of an entry did, in words; `value` is that of its message, if it is known. */
export function entrySentence(history, at, handbook, value = "") {
  const entry = history.entries[at];
  const { kind, argument, name } = entry;
  if (kind === "send" || kind === "receive") return `${name} ${offerSentence(history, at, entry, value)}`;
  if (kind === "open") return `${name} opens the channel ${history.channelNames.get(at)}`;
  if (kind === "fork") {
    return `${name} starts ${forkWords(history.childrenOfFork.get(at))}`;
  }
  if (kind === "fault") return `${name} meets the fault ${argument}${nameOf(argument, handbook)}`;
  if (kind === "end") return `${name} ends`;
  if (kind === "laid") return `${name} is stopped, as another process met a fault`;
  return `${name} pauses, as it has computed for long`;
}

/** What a process is at, in words. */
export function stateSentence(state) {
  const since = state.since < 0 ? "" : `, since entry ${state.since}`;
  if (state.kind === "send" || state.kind === "receive") return `waits to ${state.kind} on ${state.channel}${since}`;
  if (state.kind === "join") return `waits for its children${since}`;
  if (state.kind === "fault") return `met the fault ${state.fault}`;
  if (state.kind === "laid") return "is stopped";
  return state.kind === "end" ? "has ended" : "runs";
}

function deadlockWords(end, verdict) {
  const many = end.waits.length;
  const who = many === 1 ? "one process waits" : `${many} processes wait`;
  const always = verdict && verdict.kind === "ordered" ? " Every schedule ends so." : "";
  return `Deadlock: ${who}, and no process can go on.${always}`;
}

function raceWords(end, verdict) {
  const offers = verdict.way === "send" ? "two sends" : "two receives";
  const so = end.kind === "done" ? "Done" : "Deadlock";
  return `${so} in this schedule, but there is a race: ${offers} on the channel ${verdict.channel}, `
    + `entries ${verdict.earlier} and ${verdict.later}, whose order is left to the schedule.`;
}

/** How a run ended, in words, and how it looks: good, bad or warning. */
export function runWords(outcome, handbook) {
  const { end, verdict } = outcome;
  if (!end) return { look: "", text: outcome.head.join("; ") };
  if (verdict && verdict.kind === "race") return { look: "warning", text: raceWords(end, verdict) };
  if (end.kind === "deadlock") return { look: "bad", text: deadlockWords(end, verdict) };
  if (end.kind === "fault") {
    const fault = end.fault + nameOf(end.fault, handbook);
    return { look: "bad", text: `The process ${end.name} met the fault ${fault}. So there is no verdict.` };
  }
  if (end.kind === "no end") return { look: "warning", text: "The journal was followed, and stops before an end." };
  if (outcome.isReplayed) return { look: "good", text: "The journal was followed to its end: done." };
  if (verdict) return { look: "good", text: "Done, and ordered: every schedule ends so, with this output." };
  return { look: "good", text: "Done." };
}

const LINES = [
  [/^accepted$/, "good", () => "Accepted: the text keeps all rules."],
  [/^bad words$/, "bad", () => "The program takes no such words: see the options."],
  [/^read fault$/, "bad", () => "A file could not be read."],
  [/^input too long$/, "bad", () => "The input is longer than 16,777,216 bytes."],
  [/^out of memory$/, "bad", () => "Out of memory: the program asked for more than the browser gives."],
  [/^journal too long$/, "bad", () => "The journal is longer than 67,108,864 bytes."],
  [/^bad journal (\d+)$/, "bad", (n) => `Line ${n} of the journal is no text of a next entry.`],
  [/^journal unfit (\d+)$/, "bad", (n) => `The program cannot make entry ${n} of the journal there.`],
  [/^code file too long$/, "bad", () => "The code file is longer than 67,108,864 bytes."],
  [/^bad code (\d+)$/, "bad", (n) => `Line ${n} of the code file is no line of code there.`],
  [/^rejected (V\d+) (\d+)$/, "bad", (rule, i) => `The code is rejected: instruction ${i} breaks the rule ${rule}.`],
];

/** What a line of notes that is no end of a run says, in words. */
export function lineWords(line) {
  for (const [form, look, words] of LINES) {
    const match = form.exec(line);
    if (match) return { look, text: words(...match.slice(1)) };
  }
  return null;
}

/** What the browser's own error says, in words. */
export function failureWords(failed) {
  if (/call stack|too much recursion/i.test(failed))
    return "This text has an expression that is too deep for the browser's stack: some 1,400 operators in one chain "
      + "are the most in Chromium. The program on a PC takes it.";
  if (/memory|allocation|RangeError/i.test(failed)) return "The browser refuses the memory that the program needs.";
  return `The browser ended the program: ${failed}`;
}
