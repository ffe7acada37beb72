// What all parts of the page share: the data that the build put in, what the page is at, and the line of the verdict.
import { $, inCode, paragraph, element } from "./elements.mjs";
import { rowOf } from "./sentences.mjs";

/** Examples, rules and faults, options, steps of the tutorial, the grammar of the editor: unpacked at the start. */
export const data = {};

/** Of which commit the program is, and its digests. */
export const about = JSON.parse($("about").textContent);

/** The parts that are made at the start (editor, options, views, tutorial; caller for the commands, checker for the
 * check while one writes), and what the page is at; `stepped` is the view that was stepped last. */
export const page = { name: "program", code: "", linked: null, output: "", isBusy: false, isShown: false };

/** Says one line above the result; `look` is good, bad, warning or nothing. */
export function say(look, text) {
  $("verdict").className = look;
  $("verdict").textContent = text;
}

/** What the language says of a rule or a fault. */
export function handbookWords(name) {
  const row = rowOf(data.handbook, name);
  if (!row) return [];
  const title = element("b", { textContent: row.title });
  const does = name.startsWith("F") ? "meets" : "breaks";
  return [paragraph(title, `. ${row.says}`), paragraph(`A program that ${does} it: `, inCode(row.example))];
}
