// The editor: CodeMirror with colours, brackets, search, and marks of places in the text.
import { element, encode } from "./elements.mjs";
import { modeOf } from "./mode.mjs";

/** The index in a line of text behind so many bytes of it. */
export function indexOfByte(line, bytes) {
  let left = bytes;
  let index = 0;
  for (const letter of line) {
    const size = encode(letter).length;
    if (left < size) break;
    left -= size;
    index += letter.length;
  }
  return index;
}

const INDENT = 2;

const LEAVING = { Tab: false, "Shift-Tab": false };

/** Tab goes to the next step of two columns, or moves the chosen lines; after Escape it leaves the editor. */
function keys(CodeMirror, actions) {
  return {
    Tab(mirror) {
      if (mirror.somethingSelected()) mirror.indentSelection("add");
      else mirror.replaceSelection(" ".repeat(INDENT - (mirror.getCursor().ch % INDENT)));
    },
    "Shift-Tab": (mirror) => mirror.indentSelection("subtract"),
    Esc(mirror) {
      mirror.addKeyMap(LEAVING);
      return CodeMirror.Pass;
    },
    "Ctrl-Enter": actions.run,
    "Cmd-Enter": actions.run,
    "Ctrl-S": actions.save,
    "Cmd-S": actions.save,
    "Ctrl-/": "toggleComment",
    "Cmd-/": "toggleComment",
    "Alt-G": "jumpToLine",
    "Alt-Enter": (mirror) => actions.onLine(mirror.getCursor().line + 1),
  };
}

/** The editor in `place`. `onChange` is called after each change of the text, `onLine` with a line that is chosen. */
export class Editor {
  constructor(CodeMirror, place, grammar, { run, save, onChange, onLine }) {
    CodeMirror.defineMode("superpascal", () => modeOf(grammar));
    this.CodeMirror = CodeMirror;
    this.mirror = CodeMirror(place, {
      mode: "superpascal",
      lineNumbers: true,
      matchBrackets: true,
      styleActiveLine: true,
      indentUnit: INDENT,
      tabSize: INDENT,
      indentWithTabs: false,
      smartIndent: false,
      gutters: ["CodeMirror-linenumbers", "problems"],
      inputStyle: "contenteditable",
      allowDropFileTypes: ["none"], // (the page takes files)
      spellcheck: false,
      autocorrect: false,
      autocapitalize: false,
      screenReaderLabel: "the text of the program; Escape and then Tab leaves it",
      extraKeys: keys(CodeMirror, { run, save, onLine }),
    });
    this.mirror.on("change", () => onChange());
    this.mirror.on("keydown", (mirror, event) => {
      if (!["Tab", "Shift", "Escape"].includes(event.key)) mirror.removeKeyMap(LEAVING);
    });
    this.mirror.on("blur", (mirror) => mirror.removeKeyMap(LEAVING));
    this.mirror.on("gutterClick", (_, line) => onLine(line + 1));
    this.problem = null;
    this.places = [];
  }

  get text() {
    return this.mirror.getValue();
  }

  /** Puts another text in; undo brings the one before back. */
  put(text) {
    this.mirror.setValue(text);
    this.clearPlaces();
  }

  /** Forgets what undo would bring back. */
  begin() {
    this.mirror.clearHistory();
  }

  /** The position of a line and a column in bytes, both from 1. */
  position(line, column) {
    const last = this.mirror.lineCount();
    if (line > last) return { line: last - 1, ch: this.mirror.getLine(last - 1).length };
    return { line: line - 1, ch: indexOfByte(this.mirror.getLine(line - 1), column - 1) };
  }

  /** The word or the sign at a position, as far as its line goes. */
  wordAt(from) {
    const rest = this.mirror.getLine(from.line).slice(from.ch);
    const match = /^(?:\w+|'[^']*'?|:=|<>|<=|>=|\.\.|\S)/.exec(rest);
    if (match) return [from, { line: from.line, ch: from.ch + match[0].length }];
    return [{ line: from.line, ch: Math.max(0, from.ch - 1) }, from];
  }

  /** The word or the sign at a place, in quotes where there is one and it is short enough to be told. */
  wordIn(line, column) {
    const from = this.position(line, column);
    const [start, end] = this.wordAt(from);
    const word = this.mirror.getRange(start, end);
    return start === from && word.length <= 40 ? `\u201c${word}\u201d` : "";
  }

  /** Underlines the word at a place, with a mark beside its line and this message. */
  showProblem(line, column, message) {
    this.clearProblem();
    const [from, to] = this.wordAt(this.position(line, column));
    const sign = element("span", { className: "problem-sign", textContent: "\u25cf", title: message });
    this.mirror.setGutterMarker(from.line, "problems", sign);
    const options = { className: "problem", title: message, inclusiveRight: true };
    this.problem = this.mirror.markText(from, to, options);
  }

  clearProblem() {
    this.mirror.clearGutter("problems");
    if (this.problem) this.problem.clear();
    this.problem = null;
  }

  /** Goes to a place, and puts the cursor there where `isFocused`. */
  goTo(line, column, isFocused = true) {
    const at = this.position(line, column);
    this.mirror.setCursor(at);
    this.mirror.scrollIntoView(at, 80);
    if (isFocused) this.mirror.focus();
  }

  /** Marks the lines at which processes are: `places` has { line, column, look, title }. */
  showPlaces(places) {
    this.mirror.operation(() => {
      this.clearPlaces();
      for (const { line, column, look, title } of places) {
        if (line > this.mirror.lineCount()) continue;
        const handle = this.mirror.addLineClass(line - 1, "background", `place-${look}`);
        const [from, to] = this.wordAt(this.position(line, column));
        const mark = this.mirror.markText(from, to, { className: `place-word-${look}`, title });
        this.places.push({ handle, look, mark });
      }
    });
    const main = places.find(({ look }) => look === "current");
    if (main) this.mirror.scrollIntoView(this.position(main.line, main.column), 80);
  }

  clearPlaces() {
    for (const { handle, look, mark } of this.places) {
      this.mirror.removeLineClass(handle, "background", `place-${look}`);
      mark.clear();
    }
    this.places = [];
  }
}
