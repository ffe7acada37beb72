// The start of the page: it loads the editor and the program, and joins all parts.
import { onChange, check, keep, put } from "./checking.mjs";
import { perform } from "./commands.mjs";
import { Editor } from "./editor.mjs";
import { $ } from "./elements.mjs";
import { fillPrinted, makeLink, saveJournal, saveOutput, saveText, take, takeExample, takeLink } from "./exchange.mjs";
import { writeStorage, readStorage, tooLong } from "./keeping.mjs";
import { Tutorial } from "./lesson.mjs";
import { Options } from "./options.mjs";
import { loadScript, unpack } from "./packing.mjs";
import { Places } from "./places.mjs";
import { Caller } from "./program.mjs";
import { RunView } from "./runview.mjs";
import { about, data, page, say } from "./state.mjs";
import { onStep, showPlace, stepToLine } from "./stepping.mjs";

const MOST_EDITED = 4194304; // letters that the editor takes at once

function setTheme(theme) {
  document.documentElement.dataset.theme = theme;
  $("theme").textContent = theme === "dark" ? "Light" : "Dark";
}

/** Light or dark as the system has it, until the button is pressed. */
function beginTheme() {
  const system = matchMedia("(prefers-color-scheme: dark)");
  const theme = () => readStorage().theme || (system.matches ? "dark" : "light");
  setTheme(theme());
  system.addEventListener("change", () => setTheme(theme()));
  $("theme").onclick = () => {
    const theme = document.documentElement.dataset.theme === "dark" ? "light" : "dark";
    writeStorage({ theme });
    setTheme(theme);
  };
}

function showTutorial(isShown) {
  $("lesson").hidden = !isShown;
  document.querySelector("main").classList.toggle("with-lesson", isShown);
  $("tutorial").setAttribute("aria-expanded", isShown);
  if (isShown) page.tutorial.show();
}

/** What a button of the tutorial does: text, input and options are put in, and the command is performed. */
async function performCall({ command, text, input, journal, options }) {
  if (page.isBusy) return;
  if (text !== page.editor.text) page.editor.put(text);
  $("input").value = input;
  page.options.put(options);
  if (journal) $("journal").value = journal;
  onChange();
  await perform(command);
}

function listenToButtons() {
  for (const it of document.querySelectorAll("[data-command]")) it.onclick = () => perform(it.dataset.command);
  $("stop").onclick = () => page.caller.stop();
  $("examples").onchange = () => $("examples").value && takeExample($("examples").value);
  $("tutorial").onclick = () => showTutorial($("lesson").hidden);
  $("open").onclick = () => $("file").click();
  $("file").onchange = () => take([...$("file").files]);
  $("save").onclick = saveText;
  $("save-output").onclick = saveOutput;
  $("save-journal").onclick = saveJournal;
  $("link").onclick = makeLink;
  $("print").onclick = () => print();
  $("input").oninput = keep;
}

/** Ctrl-Enter and Ctrl-S outside the editor, which has them itself. */
function listenToKeys() {
  window.addEventListener("keydown", (event) => {
    if (event.defaultPrevented || !(event.ctrlKey || event.metaKey)) return;
    const action = { Enter: () => perform("run"), s: saveText }[event.key];
    if (!action) return;
    event.preventDefault();
    action();
  });
}

function listenToWindow() {
  window.addEventListener("beforeprint", fillPrinted);
  window.addEventListener("hashchange", takeLink);
  const hasFiles = (event) => event.dataTransfer && event.dataTransfer.types.includes("Files");
  window.addEventListener("dragover", (event) => {
    if (!hasFiles(event)) return;
    event.preventDefault();
    $("drop").hidden = false;
  });
  window.addEventListener("dragleave", (event) => {
    if (!event.relatedTarget) $("drop").hidden = true;
  });
  window.addEventListener("drop", (event) => {
    if (!hasFiles(event)) return;
    event.preventDefault();
    $("drop").hidden = true;
    take([...event.dataTransfer.files]);
  });
}

async function beginEditor() {
  await loadScript($("packed-editor").textContent);
  const actions = { run: () => void perform("run"), save: saveText, onChange, onLine: stepToLine };
  page.editor = new Editor(window.CodeMirror, $("editor"), data.grammar, actions);
  page.editor.mirror.on("beforeChange", (_, change) => {
    const size = change.text.reduce((sum, line) => sum + line.length + 1, 0);
    if (size <= MOST_EDITED) return;
    change.cancel();
    say("bad", tooLong("text", size));
  });
}

async function compile() {
  const module = await WebAssembly.compile(await unpack($("packed-program").textContent));
  const caller = () => new Caller(module, $("worker").textContent);
  for (const view of [page.view, page.otherView]) view.source.caller = caller();
  Object.assign(page, { checker: caller(), caller: caller() });
}

function makeView(name) {
  return new RunView($(name), data.handbook, { source: new Places(), onStep, showPlace });
}

/** The text at the start: of the link, or of the storage, or an example. */
async function takeStart() {
  const state = readStorage();
  if (await takeLink()) return;
  page.name = state.name || page.name;
  if (state.text) put(state.text, state.input || "", state.options || []);
  else takeExample("pipeline_sort");
}

function tellAbout() {
  const state = about.proved ? "The proved program" : "An UNPROVED program";
  const commit = about.commit.slice(0, 12);
  $("about-line").textContent = `${state}, version ${about.version}, commit ${commit}; sha256 of its module `
    + `${about.module}, of its WebAssembly ${about.wasm}`;
}

async function begin() {
  beginTheme();
  tellAbout();
  Object.assign(data, JSON.parse(new TextDecoder().decode(await unpack($("packed-data").textContent))));
  $("examples").add(new Option("your own text", ""));
  for (const name of Object.keys(data.examples)) $("examples").add(new Option(name));
  page.options = new Options($("options"), data.options, keep);
  Object.assign(page, { view: makeView("view"), otherView: makeView("other-view") });
  const actions = { put, perform: performCall };
  const keepStep = (step) => writeStorage({ step });
  page.tutorial = new Tutorial($("lesson"), data.lessons, actions, readStorage().step, keepStep);
  page.ready = compile().catch((error) => say("bad", `This browser cannot run the program: ${error}`));
  await beginEditor();
  listenToButtons();
  listenToKeys();
  listenToWindow();
  await takeStart();
  page.editor.begin();
  await page.ready;
  if (!page.caller) return;
  say("", "Ready. Press Run, choose an example, or begin with the tutorial.");
  document.body.dataset.ready = Math.round(performance.now());
  $("figures").textContent = `Ready ${document.body.dataset.ready} ms after the page began to load.`;
  check();
}

begin().catch((error) => say("bad", `This browser cannot show the page: ${error}`));
