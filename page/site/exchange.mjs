// What comes into the page and goes out: files, links, examples, and the text for the printer.
import { onChange, put } from "./checking.mjs";
import { $ } from "./elements.mjs";
import { decodeLink, encodeLink, readFile, save } from "./keeping.mjs";
import { data, page, say } from "./state.mjs";

const LONG_LINK = 8000; // letters
const TAKEN = {
  text: "Opened.",
  input: "Taken as the input.",
  journal: "Taken as the journal: Replay follows it.",
  code: "Taken as a code file: Exec runs it.",
};

function takeOne({ kind, text, name }) {
  if (kind === "text") {
    page.name = name.replace(/\.\w+$/, "") || "program";
    page.editor.put(text);
    onChange();
  } else if (kind === "input") $("input").value = text;
  else if (kind === "journal") {
    $("journal").value = text;
    $("journal-part").open = true;
  } else page.code = text;
  say("", TAKEN[kind]);
}

/** Takes files: each goes where its kind belongs. */
export async function take(files) {
  for (const file of files) {
    const content = await readFile(file);
    if (content.wrong) {
      say("bad", content.wrong);
      return;
    }
    takeOne(content);
  }
}

export const saveText = () => save(`${page.name}.sp`, page.editor.text);

export const saveOutput = () => save(page.fileOfOutput, page.output);

export const saveJournal = () => save(`${page.name}.journal`, $("journal").value);

/** Puts a link that carries text, input and options into the address line, and copies it where the browser lets it. */
export async function makeLink() {
  const hash = await encodeLink({ text: page.editor.text, input: $("input").value, options: page.options.all() });
  history.replaceState(null, "", `#${hash}`);
  page.linked = page.editor.text;
  const many = hash.length.toLocaleString("en");
  const long = hash.length > LONG_LINK ? ` It has ${many} letters, which some programs cut.` : "";
  try {
    await navigator.clipboard.writeText(location.href);
    say("good", `The link is in the address line, and copied.${long}`);
  } catch {
    say("good", `The link is in the address line: copy it from there.${long}`);
  }
}

/** Takes what the address carries, if it carries something. */
export async function takeLink() {
  const state = await decodeLink(location.hash);
  if (!state) return false;
  page.linked = state.text;
  put(state.text, state.input || "", state.options || []);
  return true;
}

export function takeExample(name) {
  const [text, input] = data.examples[name];
  page.name = name;
  put(text, input, []);
}

/** The text with the numbers of its lines, where the printer finds it. */
export function fillPrinted() {
  const lines = page.editor.text.split("\n");
  const width = String(lines.length).length;
  $("printed").textContent = lines.map((line, at) => `${String(at + 1).padStart(width)}  ${line}`).join("\n");
}
