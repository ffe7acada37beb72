// Showing what a call came to: the verdict in words, output and notes, the picture of the run.
import { input } from "./calling.mjs";
import { MOST_ENTRIES } from "./diagram.mjs";
import { $, paragraph } from "./elements.mjs";
import { tellEnding } from "./ending.mjs";
import { History } from "./history.mjs";
import { readNotes } from "./notes.mjs";
import { lineWords, runWords } from "./sentences.mjs";
import { data, handbookWords, page, say } from "./state.mjs";

const MOST_SHOWN = 1000000; // letters of a text
export const MOST_HISTORY = 200000; // entries of a run that is drawn

/** Where two runs are shown, they stand side by side over the whole width. */
export function showTwo(isTwo) {
  $("two-words").hidden = !isTwo;
  document.querySelector("main").classList.toggle("with-two", isTwo);
}

/** Empties the result. */
export function clearResult() {
  showTwo(false);
  for (const name of ["output", "notes", "reports"]) {
    $(name).textContent = "";
    $(`${name}-part`).hidden = true;
  }
  $("details").replaceChildren();
  $("figures").textContent = "";
  $("result").classList.remove("is-old");
  page.view.hide();
  page.otherView.hide();
  page.isShown = false;
  page.editor.clearPlaces();
}

function shortened(text) {
  if (text.length <= MOST_SHOWN) return text;
  return `${text.slice(0, MOST_SHOWN)}\n.. ${text.length - MOST_SHOWN} more letters: save it to see them`;
}

function showOutput(title, result, file) {
  Object.assign(page, { output: result.bytes, fileOfOutput: file });
  $("output-part").hidden = !result.output;
  $("output-title").textContent = title;
  $("output").textContent = shortened(result.output);
}

function showNotes(outcome, result) {
  $("notes-part").hidden = !result.notes;
  $("notes").textContent = outcome.head.join("\n");
  $("reports-part").hidden = !outcome.entries;
  const reports = result.notes.slice(result.notes.indexOf("\ntimeline\n") + 1);
  $("reports").textContent = outcome.entries ? shortened(reports) : "";
}

/** Shows how a call ended: the verdict in words, its details, output and notes. Gives what the notes say. */
export function show(result, title = "Output", file = "output.txt") {
  const outcome = readNotes(result.notes);
  page.isShown = true;
  showOutput(title, result, file);
  showNotes(outcome, result);
  if (outcome.refused) {
    const { rule, line, column } = outcome.refused;
    const word = page.editor.wordIn(line, column);
    const there = word ? `, at ${word}` : "";
    say("bad", `Refused: the rule ${rule} is broken at line ${line}, column ${column}${there}.`);
    $("details").replaceChildren(...handbookWords(rule));
    page.editor.goTo(line, column, false);
  } else if (outcome.end) {
    const { look, text } = runWords(outcome, data.handbook);
    say(look, text);
    if (outcome.end.kind === "fault") $("details").replaceChildren(...handbookWords(outcome.end.fault));
  } else if (outcome.head.length) {
    const words = lineWords(outcome.head[0]);
    say(words ? words.look : "", words ? words.text : outcome.head.join(" "));
  } else say("good", `${title}: done.`);
  return outcome;
}

/** The moment at which a run opens, and the entries that are marked. */
function opening(outcome, history) {
  const all = history.entries.length;
  if (outcome.marks) return { at: all, marks: outcome.marks };
  if (outcome.verdict && outcome.verdict.kind === "race") {
    const { earlier, later } = outcome.verdict;
    return { at: later + 1, marks: [earlier, later] };
  }
  const fault = history.entries.findIndex((entry) => entry.kind === "fault");
  if (fault >= 0) return { at: fault + 1, marks: [fault] };
  if (outcome.end && outcome.end.kind === "deadlock") return { at: all, marks: history.pendingAfter(all) };
  // (of a long run that went well the first part, as it is drawn)
  return { at: Math.min(all, MOST_ENTRIES), marks: [] };
}

/** Shows the picture of a run whose entries are known, and asks for its places. `words` are its options. */
export async function showRun(view, title, outcome, entries, words) {
  if (entries.length > MOST_HISTORY) {
    const [many, most] = [entries.length, MOST_HISTORY].map((it) => it.toLocaleString("en"));
    $("details").append(paragraph(`The run has ${many} entries; runs of ${most} at most are drawn.`));
    return;
  }
  const history = new History(entries);
  view.source.begin(page.editor.text, input(), words, entries);
  view.show(title, history, opening(outcome, history));
  const places = await view.source.trace();
  if (view.history !== history) return;
  if (places.length) view.putPlaces(places);
  tellEnding(view, outcome);
}
