// node units.mjs: tests of the page's modules that need no browser and no program.
import assert from "node:assert/strict";
import fs from "node:fs";
import path from "node:path";
import { circleOf, circlePicture, circleWords } from "../../page/site/circle.mjs";
import { Picture, svgOf } from "../../page/site/diagram.mjs";
import { History } from "../../page/site/history.mjs";
import { decodeLink, kindOf, encodeLink, tooLong } from "../../page/site/keeping.mjs";
import { Lanes, MOST_LANES, initialFolds } from "../../page/site/lanes.mjs";
import { isSolved } from "../../page/site/lesson.mjs";
import { modeOf } from "../../page/site/mode.mjs";
import { byName, entriesOf, entryOf, journalText, readNotes } from "../../page/site/notes.mjs";
import { Places, readTrace, readWhere } from "../../page/site/places.mjs";
import { statementAt } from "../../page/site/processes.mjs";
import { entrySentence, failureWords, lineWords, runWords } from "../../page/site/sentences.mjs";

const top = path.join(path.dirname(new URL(import.meta.url).pathname), "..", "..");
const example = (name) => fs.readFileSync(path.join(top, "crates", "gallery", "data", name), "utf-8");
let tests = 0;
const test = async (name, body) => {
  try {
    await body();
    tests++;
  } catch (error) {
    console.log(`${name}: ${error.stack}`);
    process.exitCode = 1;
  }
};

const RACE = readNotes(example("race_timeline.notes"));
const journalOf = (...lines) => `superpascal journal 2\n${lines.map((line) => `${line}\n`).join("")}`;
const WAITS = ["0/0.0 receive 0#1", "0/0.1 receive 0#2", "0/0.2 receive 0#0"];
const PHILOSOPHERS = journalOf("0 open", "0 open", "0 open", "0 fork 3", ...WAITS);

await test("the notes of a race", () => {
  assert.deepEqual(RACE.end, { kind: "done" });
  assert.deepEqual(RACE.verdict, { kind: "race", way: "send", channel: "0#0", earlier: 3, later: 4 });
  assert.equal(RACE.entries.length, 10);
  assert.match(runWords(RACE, {}).text, /^Done in this schedule, but there is a race: two sends on the channel 0#0/);
});

await test("other notes", () => {
  assert.deepEqual(readNotes("refused I1 12:5\n").refused, { rule: "I1", line: 12, column: 5 });
  const outcome = readNotes("deadlock\nwaits 0/0.0 send 0#0\nwaits 0 receive 0/0.1#2\nordered\n");
  const first = { name: "0/0.0", way: "send", channel: "0#0" };
  assert.deepEqual(outcome.end.waits, [first, { name: "0", way: "receive", channel: "0/0.1#2" }]);
  assert.deepEqual(readNotes("fault F2 0/1.2\nunjudged\n").end, { kind: "fault", fault: "F2", name: "0/1.2" });
  assert.equal(readNotes("replayed\nno end\n").isReplayed, true);
  assert.equal(readNotes("done\nordered\ntimeline\n0 0 end\ncensus\nforks 0\n").entries.length, 1);
  for (const line of ["accepted", "bad words", "read fault", "input too long", "out of memory", "journal too long",
    "bad journal 3", "journal unfit 0", "code file too long", "bad code 1", "rejected V2 1"])
    assert.ok(lineWords(line), line);
});

await test("each line of the table of statuses has words", () => {
  const commands = fs.readFileSync(path.join(top, "docs", "COMMANDS.md"), "utf-8");
  const rows = commands.match(/^\| [\d, ]+ \| .* \| `[^`]+` \|$/gm);
  assert.ok(rows.length > 8);
  for (const row of rows) {
    const line = row.match(/`([^`]+)` \|$/)[1].replace(/\bVN\b/, "V1").replace(/\b[NI]\b/g, "1");
    assert.ok(lineWords(line), line);
  }
});

await test("entries and journals", () => {
  assert.deepEqual(entryOf("0/2.1/0.3 receive 0/2.1#3"), { name: "0/2.1/0.3", kind: "receive", argument: "0/2.1#3" });
  for (const line of ["", "0", "0 opens", "1 open", "0 fork", "0/0 end", "0 send c"]) assert.equal(entryOf(line), null);
  assert.equal(journalText(entriesOf(PHILOSOPHERS)), PHILOSOPHERS);
  assert.deepEqual(["0/0.10", "0", "0/0.9/1.0", "0/0.9"].sort(byName), ["0", "0/0.9", "0/0.9/1.0", "0/0.10"]);
});

await test("the history of a race", () => {
  const history = new History(RACE.entries);
  assert.deepEqual(history.message(3), { sent: 3, received: 2, first: 2, last: 3 });
  assert.deepEqual(history.pendingAfter(3), [2]);
  assert.deepEqual(history.pendingAfter(10), []);
  assert.equal(history.stateAfter(2).get("0").kind, "join");
  assert.deepEqual(history.stateAfter(5).get("0/0.2"), { kind: "send", channel: "0#0", since: 4 });
  assert.equal(history.stateAfter(9).get("0").kind, "runs");
  assert.equal(history.stateAfter(10).get("0").kind, "end");
  assert.deepEqual(history.rowsByCause(), [0, 1, 2, 3, 2, 4, 4, 5, 5, 6]);
  assert.equal(entrySentence(history, 1, {}), "0 starts 3 processes, 0/0.0 to 0/0.2, and waits for them");
  assert.equal(entrySentence(history, 0, {}), "0 opens the channel 0#0");
  assert.equal(entrySentence(history, 3, {}, "1"), "0/0.1 sends 1 on 0#0 and meets 0/0.0, which waited since entry 2");
  assert.equal(entrySentence(history, 2, {}), "0/0.0 offers to receive on 0#0; 0/0.1 sends at entry 3");
});

await test("a fork of no children and a process that never runs", () => {
  const history = new History(entriesOf("superpascal journal 2\n0 fork 0\n"));
  assert.equal(history.stateAfter(1).get("0").kind, "join");
  assert.match(entrySentence(history, 0, {}), /starts no process/);
});

await test("pictures, lanes and folding", () => {
  const wide = new History(entriesOf(journalOf("0 fork 3", ...[0, 1, 2].map((k) => `0/0.${k} fork 30`))));
  assert.deepEqual([...initialFolds(wide)], ["0/0.0", "0/0.1", "0/0.2"]);
  assert.equal(new Lanes(wide, initialFolds(wide)).width, 4);
  const flat = new History(entriesOf("superpascal journal 2\n0 fork 5000\n"));
  const lanes = new Lanes(flat, initialFolds(flat));
  assert.ok(lanes.width <= MOST_LANES);
  assert.equal(lanes.lane.size, 5001);
  const history = new History(entriesOf(PHILOSOPHERS));
  const options = { folds: new Set(), byCause: true, first: 0, marks: new Set([4, 5, 6]), places: [] };
  const svg = svgOf(new Picture(history, options), 1);
  assert.equal(svg.match(/class="stuck/g).length, 3);
  assert.equal(svg.match(/ marked/g).length, 3);
});

await test("values at the arrows of a picture", () => {
  const history = new History(RACE.entries);
  const labels = (places) => {
    const picture = new Picture(history, { folds: new Set(), byCause: false, first: 0, marks: new Set(), places });
    return [...svgOf(picture, 1).matchAll(/text-anchor="middle">(#[^<]*)/g)].map((it) => it[1]);
  };
  assert.deepEqual(labels([]), ["#0", "#0"]);
  const places = [];
  [places[3], places[4]] = [{ value: "'<'" }, { value: "[1, 2, 3, 4, 5, 6, 7, 8, 9, 10, 11, 12, 13]" }];
  assert.deepEqual(labels(places), ["#0: '&#60;'", "#0"]);
});

await test("what trace says", () => {
  const first = "trace\n0 1:66 0 open\n1 1:75 0 fork 3\n";
  const places = readTrace(`${first}2 1:125 0/0.1 send 0#0 (a: 1, b: 'x')\n3 10:13 0/0.0 fault F3\n`);
  assert.deepEqual(places[2], { line: 1, column: 125, value: "(a: 1, b: 'x')" });
  assert.deepEqual(places[3], { line: 10, column: 13, value: "" });
  assert.equal(places.length, 4);
});

const WHERE = `where
0 25:3 join
  philosophers
    forks = [0#0, 0#1, 0#2]
    i = 3
0/0.0 18:3 receive 0#1
  philosopher 26:5
    k = 1
    left = 0#0
    right = 0#1
    borrowed = undefined
  forall
    k = 1
0/0.1 18:3 receive 0#2
  philosopher 26:5
    left = 0#1
    right = 0#2
    x away
0/0.2 18:3 receive 0#0
  philosopher 26:5
    left = 0#2
    right = 0#0
`;

await test("what where says", () => {
  const processes = readWhere(WHERE);
  assert.equal(processes.length, 4);
  assert.deepEqual([processes[0].line, processes[0].column, processes[0].condition], [25, 3, "join"]);
  const call = processes[1].calls[0];
  assert.deepEqual([call.block, call.line, call.column], ["philosopher", 26, 5]);
  const variables = call.variables.map(({ name, value }) => `${name} = ${value}`);
  assert.deepEqual(variables, ["k = 1", "left = 0#0", "right = 0#1", "borrowed = undefined"]);
  const variable = { name: "k", value: "1" };
  assert.deepEqual(processes[1].calls[1], { block: "forall", line: 0, column: 0, variables: [variable] });
  assert.equal(processes[2].calls[0].variables[2].value, "with a child");
  assert.deepEqual(readWhere("where\n0/0.1 19:5 runs to its end\n")[0].calls, []);
  assert.deepEqual(readWhere("where\n"), []);
});

await test("the circle of a deadlock", () => {
  const processes = readWhere(WHERE);
  const circle = circleOf(processes);
  assert.deepEqual(circle.map(({ name, channel }) => [name, channel]),
    [["0/0.0", "0#1"], ["0/0.1", "0#2"], ["0/0.2", "0#0"]]);
  assert.equal(circleWords(circle), "0/0.0 \u2192 0/0.1 \u2192 0/0.2 \u2192 0/0.0");
  assert.equal(circlePicture(circle).match(/class="node"/g).length, 3);
  assert.equal(circleOf(processes.slice(0, 3)), null);
  const both = (name, waits, other) => `${name} 1:1 receive ${waits}\n  p\n    c = [${waits}, ${other}]\n`;
  const two = circleOf(readWhere(`where\n${both("0/0.0", "0#1", "0#2")}${both("0/0.1", "0#2", "0#1")}`));
  assert.deepEqual(two.map(({ name }) => name), ["0/0.0", "0/0.1"]);
  assert.ok(!circlePicture(two).includes("NaN"));
  assert.equal(circlePicture(Array(13).fill(two[0])), "");
});

await test("the statement at a place", () => {
  const lines = ["  x := '\u20ac'; y := 1", "  writeln('12345678901234567890123456789012345678901234567890')"];
  assert.equal(statementAt(lines, { line: 1, column: 3 }), "x := '\u20ac'; y := 1");
  assert.equal(statementAt(lines, { line: 1, column: 15 }), "y := 1");
  assert.equal(statementAt(lines, { line: 2, column: 3 }).length, 49);
  assert.equal(statementAt(lines, { line: 9, column: 1 }), "");
});

/** A caller that notes what it is asked, and answers by this function when `go` is called. */
function callerOf(answer) {
  const caller = { asked: [], left: [], stopped: 0 };
  caller.call = (words, files) => new Promise((done) => {
    caller.asked.push([words.join(" "), new TextDecoder().decode(files["run.journal"])]);
    const output = new TextEncoder().encode(answer(words));
    caller.left.push(() => done({ status: 4, output, notes: new Uint8Array() }));
  });
  caller.stop = () => caller.stopped++;
  Object.defineProperty(caller, "isAtWork", { get: () => caller.left.length > 0 });
  caller.go = async () => {
    while (caller.left.length) {
      caller.left.shift()();
      await new Promise((go) => setTimeout(go));
    }
  };
  return caller;
}

function placesOf(caller) {
  const places = new Places();
  places.caller = caller;
  places.begin("program", new Uint8Array(), ["--workers", "1", "--ticks", "5"], entriesOf(PHILOSOPHERS));
  return places;
}

await test("places of a program that cannot tell them", async () => {
  const caller = callerOf(() => "");
  const places = placesOf(caller);
  const [trace, where] = [places.trace(), places.where(3)];
  await caller.go();
  assert.deepEqual(await trace, []);
  assert.equal(await where, null);
});

await test("places are asked once for each moment", async () => {
  const caller = callerOf((words) => (words[0] === "trace" ? "trace\n0 1:2 0 open\n" : WHERE));
  const places = placesOf(caller);
  const where = places.where(1);
  await caller.go();
  assert.equal((await places.trace())[0].column, 2);
  assert.equal((await where).length, 4);
  assert.equal((await places.where(1)).length, 4);
  assert.equal(places.known(1).length, 4);
  assert.equal(places.known(2), null);
  assert.deepEqual(caller.asked, [["trace text.sp run.journal --ticks 5", PHILOSOPHERS],
    ["where text.sp run.journal --ticks 5", "superpascal journal 2\n0 open\n"]]);
});

await test("of moments that wait the newest is asked alone", async () => {
  const caller = callerOf((words) => (words[0] === "trace" ? "trace\n" : WHERE));
  const places = placesOf(caller);
  const asked = [[1], [0, "before"], [2], [4], [3, "hover"], [4]];
  const wheres = asked.map((it) => places.where(...it));
  await caller.go();
  const told = (await Promise.all(wheres)).map((it) => (it ? it.length : 0));
  assert.deepEqual(told, [4, 4, 0, 4, 4, 4]);
  const moments = caller.asked.slice(1).map(([, journal]) => journal.split("\n").length - 2);
  assert.deepEqual(moments, [1, 4, 3, 0]);
});

await test("another run ends what was asked of the one before", async () => {
  const caller = callerOf(() => WHERE);
  const places = placesOf(caller);
  const [trace, where] = [places.trace(), places.where(1)];
  places.begin("program", new Uint8Array(), [], []);
  assert.equal(caller.stopped, 1);
  await caller.go();
  assert.deepEqual([await trace, await where], [[], null]);
  assert.equal(places.known(1), null);
});

await test("links", async () => {
  const state = { text: "program \u00e4 \u20ac '\n", input: "1\n", options: ["--ticks", "7"] };
  assert.deepEqual(await decodeLink("#" + (await encodeLink(state))), state);
  for (const hash of ["", "#s=AAAA", "#s=!!", "#x"]) assert.equal(await decodeLink(hash), null);
});

await test("kinds of files", () => {
  assert.equal(kindOf("a.sp", "program a;"), "text");
  assert.equal(kindOf("a.txt", "{ one } program a;"), "text");
  assert.equal(kindOf("a.in", "1 2 3"), "input");
  assert.equal(kindOf("a.txt", "superpascal journal 2\n"), "journal");
  assert.equal(kindOf("a", "superpascal code 1\n"), "code");
  assert.equal(tooLong("text", 1048576), "");
  assert.match(tooLong("text", 1048577), /1,048,576/);
});

await test("tasks", () => {
  const got = { command: "run", outcome: readNotes("done\nordered\n"), output: "43\n", entries: [] };
  assert.equal(isSolved({ output: "43\n", verdict: "ordered" }, got), true);
  assert.equal(isSolved({ output: "42\n" }, got), false);
  assert.equal(isSolved({ sends: 1 }, got), false);
  const refused = { command: "check", outcome: readNotes("refused I1 6:5\n"), output: "" };
  assert.equal(isSolved({ refused: "I1" }, refused), true);
});

await test("what the browser says", () => {
  assert.match(failureWords("RangeError: Maximum call stack size exceeded"), /too deep/);
  assert.match(failureWords("InternalError: too much recursion"), /too deep/);
  assert.match(failureWords("RangeError: WebAssembly.Instance(): Out of memory"), /memory/);
});

/** A line as the editor reads it, for the mode: its tokens with their colours. */
function tokens(mode, state, string) {
  const found = [];
  const stream = {
    string,
    pos: 0,
    sol: () => stream.pos === 0,
    next: () => string[stream.pos++],
    eatSpace() {
      const begin = stream.pos;
      while (/\s/.test(string[stream.pos] || "")) stream.pos++;
      return stream.pos > begin;
    },
    match(form) {
      const got = form.exec(string.slice(stream.pos));
      if (got) stream.pos += got[0].length;
      return got;
    },
  };
  while (stream.pos < string.length) {
    const begin = stream.pos;
    const style = mode.token(stream, state);
    assert.ok(stream.pos > begin, "the mode goes on");
    if (style) found.push([string.slice(begin, stream.pos), style]);
  }
  return found;
}

await test("colours", () => {
  const grammar = path.join(top, "editors", "vscode", "superpascal.tmLanguage.json");
  const mode = modeOf(JSON.parse(fs.readFileSync(grammar, "utf-8")));
  const state = mode.startState();
  const colours = (text) => tokens(mode, state, text).map((it) => it.join("/")).join(" ");
  assert.equal(colours("procedure  Node(k: integer);"), "procedure/keyword Node/def integer/type");
  assert.equal(colours("x1 := 'it''s' { a"), ":=/operator 'it''s'/string { a/comment");
  assert.equal(colours("b } parallel 12 goto"), "b }/comment parallel/parallel 12/number goto/error");
  for (const file of fs.readdirSync(path.join(top, "crates", "gallery", "data")).filter((it) => it.endsWith(".sp")))
    for (const line of example(file).split("\n")) tokens(mode, state, line);
  assert.equal(state.open, -1);
});

console.log(`${tests} tests of the page's modules`);
