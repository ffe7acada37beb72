// node sameness.mjs page.wasm PROGRAM TEXTS.json: every command on each text, in WebAssembly and natively: status,
// output and notes must be the same. TEXTS.json has of each text its name, itself and its input, a letter for a byte.
import { spawnSync } from "node:child_process";
import fs from "node:fs";
import os from "node:os";
import path from "node:path";
import { callProgram } from "../../page/site/call.mjs";

const [wasm, program, list] = process.argv.slice(2);
const module = new WebAssembly.Module(fs.readFileSync(wasm));
const texts = JSON.parse(fs.readFileSync(list, "utf-8"));
const folder = fs.mkdtempSync(path.join(os.tmpdir(), "page-"));
const counts = { alike: 0, not: 0 };
const statuses = new Map();
process.chdir(folder);

/** Makes one call both ways, and compares. Gives what the page's program said. */
function compare(name, words, files, input) {
  const ours = callProgram(module, words, new Map(Object.entries(files)), input);
  const theirs = spawnSync(program, words, { input, maxBuffer: 1 << 28 });
  const [output, notes] = [Buffer.from(ours.output), Buffer.from(ours.notes)];
  statuses.set(ours.status, (statuses.get(ours.status) || 0) + 1);
  if (ours.status === theirs.status && output.equals(theirs.stdout) && notes.equals(theirs.stderr)) counts.alike++;
  else {
    counts.not++;
    const said = [ours.status, String(notes).slice(0, 200), theirs.status, String(theirs.stderr).slice(0, 200)];
    console.log("not alike:", name, words.join(" "), ...said);
  }
  return { status: ours.status, output, notes };
}

/** A command that writes a file, and then those that take it. Gives the file's bytes, where there are some. */
function handOn(name, files, input, words, file, ...next) {
  const made = compare(name, words, files, input);
  const bytes = words[0] === "run" ? made.notes : made.output;
  if (!bytes.length) return null;
  fs.writeFileSync(file, bytes);
  for (const it of next) compare(name, it, { ...files, [file]: bytes }, input);
  return bytes;
}

const alongOf = (file) => ["replay", "trace", "where"].map((command) => [command, "a.sp", file]);

/** `where` in the midst of a run: of the first half of its journal. */
function compareHalf(name, files, input, journal) {
  const lines = journal.toString("latin1").split("\n").slice(0, -1);
  const half = Buffer.from(lines.slice(0, 1 + lines.length / 2).join("\n") + "\n", "latin1");
  fs.writeFileSync("h.journal", half);
  compare(name, ["where", "a.sp", "h.journal"], { ...files, "h.journal": half }, input);
}

function allCommands(name, text, given) {
  const files = { "a.sp": Buffer.from(text, "latin1") };
  const input = Buffer.from(given, "latin1");
  const one = ["--workers", "1"];
  fs.writeFileSync("a.sp", files["a.sp"]);
  for (const command of ["check", "code", "sets", "format"]) compare(name, [command, "a.sp"], files, input);
  compare(name, ["run", "a.sp", ...one, "--show", "all"], files, input);
  compare(name, ["run", "a.sp", ...one, "--ticks", "7", "--depth=3", "--output", "5"], files, input);
  handOn(name, files, input, ["build", "a.sp"], "a.code", ["exec", "a.code", ...one]);
  handOn(name, files, input, ["witness", "a.sp", ...one], "w.journal", ...alongOf("w.journal"));
  const kept = ["run", "a.sp", ...one, "--show", "journal"];
  const journal = handOn(name, files, input, kept, "r.journal", ...alongOf("r.journal"));
  if (journal && journal.toString("latin1").startsWith("superpascal journal")) compareHalf(name, files, input, journal);
}

/** Words, files and inputs that are refused. */
function refusals() {
  const nothing = Buffer.alloc(0);
  const text = Buffer.from("program a; begin write(1) end.\n");
  const sent = Buffer.from("program a; type t = *(integer); var c: t; begin open(c); send(c, 1) end.\n");
  const files = {
    "a.sp": text,
    "c.sp": sent,
    "bad.journal": Buffer.from("superpascal journal 2\n0 opens\n"),
    "unfit.journal": Buffer.from("superpascal journal 2\n0 open\n0 end\n"),
    "bad.code": Buffer.from("superpascal code 2\n"),
    "rejected.code": Buffer.from("superpascal code 1\nlayout 0 0 - none sizes variables formals\n0 neg\n1 end\n"),
  };
  for (const [name, bytes] of Object.entries(files)) fs.writeFileSync(name, bytes);
  const calls = ["", "run", "go a.sp", "run a.sp a.sp", "run a.sp --ticks 0", "run a.sp --workers 65", "check none.sp",
    "run none.sp", "replay c.sp bad.journal", "replay c.sp unfit.journal", "replay c.sp none.journal",
    "trace c.sp bad.journal",
    "trace c.sp unfit.journal", "where c.sp bad.journal", "where c.sp unfit.journal", "where c.sp none.journal",
    "trace c.sp", "where c.sp", "where a.sp unfit.journal --workers 1", "exec bad.code", "exec rejected.code",
    "exec none.code", "gen 0", "gen 7", "gen 2001", "check a.sp --ticks 1", "run -- a.sp", "sets", "-x"];
  for (const words of calls) compare("refusals", words.split(" ").filter(Boolean), files, nothing);
  compare("a long input", ["run", "a.sp"], files, Buffer.alloc(16777217, 32));
  compare("a long text", ["check", "a.sp"], long({ "a.sp": Buffer.alloc(1048577, 32) }), nothing);
  compare("a long journal", ["replay", "c.sp", "l"], long({ "c.sp": sent, l: Buffer.alloc(67108865, 48) }), nothing);
}

function long(files) {
  for (const [name, bytes] of Object.entries(files)) fs.writeFileSync(name, bytes);
  return files;
}

for (const [name, text, given] of texts) allCommands(name, text, given);
refusals();
process.chdir("/");
fs.rmSync(folder, { recursive: true });
const sorted = [...statuses].sort((one, other) => one[0] - other[0]);
const each = sorted.map(([status, many]) => `${status}: ${many}`).join(", ");
console.log(`${texts.length} texts, ${counts.alike} calls alike, ${counts.not} not; statuses ${each}`);
process.exitCode = counts.not ? 1 : 0;
