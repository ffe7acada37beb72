// The commands of the page. Each gives what it came to, for the tasks of the tutorial, or null.
import { call, input, setBusy } from "./calling.mjs";
import { $, button, encode, inCode, paragraph } from "./elements.mjs";
import { tooLong } from "./keeping.mjs";
import { entriesOf, journalText, readNotes } from "./notes.mjs";
import { failureWords, runWords } from "./sentences.mjs";
import { MOST_HISTORY, clearResult, show, showRun, showTwo } from "./showing.mjs";
import { data, page, say } from "./state.mjs";

async function runText() {
  const words = page.options.words("run");
  const result = await call(["run", "text.sp", "--show", "all", ...words], {}, input());
  if (!result) return null;
  const outcome = show(result);
  const { entries } = outcome;
  if (entries) {
    $("journal").value = entries.length <= MOST_HISTORY ? journalText(entries) : "";
    if (outcome.verdict && outcome.verdict.kind === "race") {
      const both = button("Witness", () => perform("witness"));
      $("details").append(paragraph(both, " shows beside it a schedule in which the two offers clash."));
    }
    showRun(page.view, "The run", outcome, entries, words);
  }
  return { command: "run", outcome, output: result.output, entries };
}

async function witness() {
  const runResult = await runText();
  if (!runResult || !runResult.entries) return runResult;
  if (!runResult.outcome.verdict || runResult.outcome.verdict.kind !== "race") {
    $("details").prepend(paragraph("There is no race, so there is no witness to show."));
    return runResult;
  }
  const words = page.options.words("witness");
  const result = await call(["witness", "text.sp", ...words], {}, input());
  if (!result) return runResult;
  const { look, text } = runWords(runResult.outcome, data.handbook);
  say(look, text);
  $("journal").value = result.output;
  const entries = entriesOf(result.output);
  const outcome = { marks: [entries.length - 2, entries.length - 1] };
  showTwo(true);
  showRun(page.otherView, "The witness, in which the two offers clash", outcome, entries, words);
  $("views").scrollIntoView({ block: "start" });
  return { command: "witness", outcome: readNotes(result.notes), output: result.output, entries };
}

/** Calls a command on the journal below the editor; null if that cannot be taken, which is said. */
async function callAlong(command) {
  const journal = $("journal").value;
  const wrong = journal ? tooLong("journal", journal.length) : "There is no journal yet: Run makes one.";
  $("journal-part").open = true;
  if (wrong) {
    say("bad", wrong);
    return null;
  }
  const files = { "run.journal": encode(journal) };
  const result = await call([command, "text.sp", "run.journal", ...page.options.words(command)], files, input());
  return result && { journal, result };
}

/** The entries of a journal that were followed; where one does not fit, that is told. */
function followedEntries(journal, outcome) {
  const entries = entriesOf(journal);
  const unfit = /^journal unfit (\d+)$/.exec(outcome.head[0] || "");
  if (!unfit) return outcome.isReplayed ? entries : [];
  const line = journal.split("\n")[+unfit[1] + 1] || "";
  $("details").replaceChildren(paragraph("The entry that does not fit: ", inCode(line)));
  return entries.slice(0, +unfit[1]);
}

async function replay() {
  const called = await callAlong("replay");
  if (!called) return null;
  const { journal, result } = called;
  const outcome = show(result);
  const entries = followedEntries(journal, outcome);
  const words = page.options.words("replay");
  if (entries.length) showRun(page.view, "The journal as it was followed", outcome, entries, words);
  return { command: "replay", outcome, output: result.output, entries };
}

/** A command that writes what the program does along the journal, in place of its output. */
async function tellAlong(command, title) {
  const called = await callAlong(command);
  if (!called) return null;
  const { journal, result } = called;
  const outcome = show(result, title, `${page.name}.${command}.txt`);
  return { command, outcome, output: result.output, entries: followedEntries(journal, outcome) };
}

async function checkText() {
  const result = await call(["check", "text.sp"]);
  return result && { command: "check", outcome: show(result), output: result.output };
}

async function formatText() {
  const result = await call(["format", "text.sp"]);
  if (!result) return null;
  const outcome = show(result);
  if (result.status === 0) {
    $("output-part").hidden = true;
    page.editor.put(result.output);
    say("good", "The text has its canonical layout.");
  }
  return { command: "format", outcome, output: result.output };
}

/** A command whose output is a text about the program. */
async function list(command, title) {
  const result = await call([command, "text.sp"]);
  return result && { command, outcome: show(result, title, `${page.name}.${command}.txt`), output: result.output };
}

async function buildCode() {
  const result = await call(["build", "text.sp"]);
  if (!result) return null;
  const outcome = show(result, "Code file", `${page.name}.code`);
  page.code = result.status === 0 ? result.output : "";
  return { command: "build", outcome, output: result.output };
}

async function execCode() {
  if (!page.code) {
    const built = await buildCode();
    if (!built || !page.code) return built;
  }
  const words = ["exec", "text.code", ...page.options.words("exec")];
  const result = await call(words, { "text.code": encode(page.code) }, input());
  return result && { command: "exec", outcome: show(result), output: result.output };
}

async function generate() {
  const result = await call(["gen", $("nodes").value, ...page.options.words("gen")]);
  return result && { command: "gen", outcome: show(result, "Generated program"), output: result.output };
}

const COMMANDS = {
  run: runText,
  witness,
  replay,
  trace: () => tellAlong("trace", "Trace"),
  where: () => tellAlong("where", "State behind the journal"),
  check: checkText,
  format: formatText,
  sets: () => list("sets", "Sets"),
  code: () => list("code", "Code"),
  build: buildCode,
  exec: execCode,
  gen: generate,
};

/** Brings the result into view, where it stands below the text or was scrolled away. */
function bringIntoView() {
  const { top, bottom } = $("verdict").getBoundingClientRect();
  const isTwo = !$("other-view").hidden;
  if (!isTwo && (top < 0 || bottom > innerHeight)) $("result").scrollIntoView({ block: "start" });
}

/** Performs a command, where none is at work. */
export async function perform(command) {
  if (page.isBusy) return;
  const wrong = page.options.wrong(command) || tooLong("input", $("input").value.length);
  clearResult();
  if (wrong) {
    $("options-part").open = true;
    say("bad", wrong);
    bringIntoView();
    return;
  }
  setBusy(true);
  bringIntoView();
  try {
    const result = await COMMANDS[command]();
    if (result) page.tutorial.look(result);
  } catch (error) {
    say("bad", failureWords(String(error)));
  } finally {
    setBusy(false);
    bringIntoView();
  }
}
