// The check of the text while it is written: the refused place is underlined, the rule's sentence stands below.
import { $, button, encode, decode } from "./elements.mjs";
import { writeStorage } from "./keeping.mjs";
import { readNotes } from "./notes.mjs";
import { failureWords, lineWords, rowOf } from "./sentences.mjs";
import { data, page } from "./state.mjs";

const CHECK_AFTER = 300; // milliseconds behind the last key
let checkTimer = 0;
let checks = 0;

/** Puts a text, an input and options in. */
export function put(text, input = "", options = null) {
  page.editor.put(text);
  $("input").value = input;
  if (options) page.options.put(options);
  onChange();
}

/** After a change of the text: it is kept and checked a moment later. */
export function onChange() {
  const example = data.examples[page.name];
  $("examples").value = example && example[0] === page.editor.text ? page.name : "";
  page.editor.clearPlaces();
  page.code = "";
  if (page.isShown) $("result").classList.add("is-old");
  clearTimeout(checkTimer);
  checkTimer = setTimeout(check, CHECK_AFTER);
}

/** Keeps text, input and options in the browser's storage. The address no longer carries a text that was changed. */
export function keep() {
  if (page.linked !== null && page.linked !== page.editor.text) {
    page.linked = null;
    history.replaceState(null, "", "#");
  }
  writeStorage({ text: page.editor.text, input: $("input").value, options: page.options.all(), name: page.name });
}

export async function check() {
  keep();
  if (!page.checker) return;
  const number = ++checks;
  if (page.checker.isAtWork) page.checker.stop();
  const result = await page.checker.call(["check", "text.sp"], { "text.sp": encode(page.editor.text) });
  if (number !== checks || result.stopped) return;
  page.editor.clearProblem();
  $("problem").className = "bad";
  const outcome = result.failed ? null : readNotes(decode(result.notes));
  if (!outcome) $("problem").textContent = failureWords(result.failed);
  else if (outcome.refused) showRefusal(outcome.refused);
  else if (outcome.head[0] === "accepted") {
    $("problem").className = "";
    $("problem").textContent = "\u2713 keeps all rules";
  } else {
    const words = lineWords(outcome.head[0] || "");
    $("problem").textContent = words ? words.text : outcome.head.join(" ");
  }
}

function showRefusal({ rule, line, column }) {
  const row = rowOf(data.handbook, rule);
  const message = row ? `${rule}. ${row.says}` : rule;
  page.editor.showProblem(line, column, message);
  const go = button(`${line}:${column}`, () => page.editor.goTo(line, column), { title: "go there" });
  $("problem").replaceChildren(go, ` ${message}`);
}
