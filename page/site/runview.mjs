// A run that is looked at: its picture, and stepping over the entries of its journal.
import { MOST_ENTRIES, Picture, svgOf } from "./diagram.mjs";
import { button, element, paragraph } from "./elements.mjs";
import { initialFolds } from "./lanes.mjs";
import { eventNodes, offersUnderWay, processTable } from "./processes.mjs";
import { entrySentence } from "./sentences.mjs";

const HOVER_AFTER = 120; // milliseconds that the pointer stands on an event
const SCALES = [0.4, 0.55, 0.75, 1, 1.35, 1.8, 2.5];

const CAUSE = "an entry right below those that had to come before it, or a row for each";

function tool(text, label, action) {
  const node = button(text, action, { title: label });
  node.setAttribute("aria-label", label);
  return node;
}

/** The view of a run in `place`. `handbook` has the names of faults; `source` knows the places of its text (Places);
 * `onStep(view)` is called after each step, `showPlace(view, place)` when a place of the text is to be shown. */
export class RunView {
  constructor(place, handbook, { source, onStep, showPlace }) {
    Object.assign(this, { place, handbook, source, onStep });
    this.showPlace = (at) => showPlace(this, at);
    this.scale = 3;
    this.byCause = false;
    this.build();
  }

  build() {
    this.title = element("h2");
    this.slider = element("input", { type: "range", min: 0, oninput: () => this.step(+this.slider.value) });
    this.slider.setAttribute("aria-label", "entries of the journal that have happened");
    this.count = element("output", { className: "count" });
    const tools = element("div", { className: "tools" },
      tool("|\u25c0", "to the start", () => this.step(0)),
      tool("\u25c0", "one entry back", () => this.step(this.now - 1)),
      this.slider,
      tool("\u25b6", "one entry on", () => this.step(this.now + 1)),
      tool("\u25b6|", "to the end", () => this.step(this.history.entries.length)),
      this.count,
      tool("\u2212", "smaller", () => this.zoom(-1)),
      tool("+", "larger", () => this.zoom(1)),
      tool("fold", "fold all, or unfold", () => this.foldAll()),
      tool("by cause", CAUSE, () => this.turn()));
    this.causeButton = tools.lastChild;
    this.sentence = element("p", { className: "sentence" });
    this.sentence.setAttribute("aria-live", "polite");
    this.picture = element("div", { className: "picture", tabIndex: 0 });
    this.picture.setAttribute("aria-label", "picture of the run; arrow keys step");
    this.tooltip = element("div", { className: "tooltip", hidden: true });
    this.table = element("div", { className: "processes" });
    this.place.replaceChildren(this.title, tools, this.sentence, this.picture, this.tooltip, this.table);
    this.listen();
    this.place.hidden = true;
  }

  listen() {
    this.picture.onclick = (event) => this.choose(event.target);
    this.picture.onkeydown = (event) => {
      const by = { ArrowDown: 1, ArrowRight: 1, ArrowUp: -1, ArrowLeft: -1 }[event.key];
      if (by) {
        event.preventDefault();
        this.step(this.now + by);
      } else if ((event.key === "Enter" || event.key === " ") && event.target.dataset.fold) {
        event.preventDefault();
        this.choose(event.target);
      }
    };
    this.picture.onpointermove = (event) => this.hover(event);
    this.picture.onpointerleave = () => this.leave();
    this.picture.onwheel = (event) => {
      if (!event.ctrlKey) return;
      event.preventDefault();
      this.zoom(event.deltaY < 0 ? 1 : -1);
    };
  }

  /** Shows a history, with these entries marked, at the moment behind `at` entries. */
  show(title, history, { marks = [], at = history.entries.length } = {}) {
    this.history = history;
    this.marks = new Set(marks);
    this.folds = initialFolds(history);
    this.places = [];
    this.where = this.before = null;
    this.title.textContent = title;
    this.slider.max = history.entries.length;
    this.place.hidden = false;
    this.first = this.now = 0;
    this.scale = this.fitting();
    this.draw();
    this.step(at);
    if (!marks.length) this.picture.scrollTo(0, 0);
  }

  /** The largest scale, at most 1, at which all lanes are seen at once, or at least half of that size. */
  fitting() {
    const { history, folds } = this;
    const picture = new Picture(history, { folds, byCause: false, first: 0, marks: this.marks, places: [] });
    const room = this.picture.clientWidth - 20;
    const index = SCALES.slice(0, 4).findLastIndex((scale) => (picture.width + 30) * scale <= room);
    return Math.max(index, 1);
  }

  hide() {
    this.place.hidden = true;
    this.history = null;
    this.source.end();
    this.leave();
  }

  /** Takes the place and the value of each entry, by `trace`. */
  putPlaces(places) {
    this.places = places;
    this.draw();
    this.step(this.now);
  }

  /** Takes what each process is at, by `where`, at the moment that is shown and at the one before. */
  putWhere(processes, before = null) {
    Object.assign(this, { where: processes, before, isOld: false });
    this.tellProcesses();
  }

  /** Goes to the moment behind so many entries. */
  step(now) {
    if (!this.history) return;
    const all = this.history.entries.length;
    this.now = Math.max(0, Math.min(all, now));
    this.where = this.source.known(this.now) || this.where;
    this.before = this.source.known(this.now - 1);
    this.isOld = this.where !== this.source.known(this.now);
    const isOut = this.now <= this.first || this.now > this.first + MOST_ENTRIES;
    const first = isOut ? Math.max(0, Math.min(all - MOST_ENTRIES, this.now - MOST_ENTRIES / 2)) : this.first;
    if (first === this.first) this.markMoment();
    else {
      this.first = first;
      this.draw();
    }
    this.tell();
    this.onStep(this);
  }

  draw() {
    const { history, folds, byCause, first, marks, places } = this;
    const picture = new Picture(history, { folds, byCause, first, marks, places });
    this.picture.innerHTML = svgOf(picture, SCALES[this.scale]);
    const all = this.history.entries.length;
    if (all > MOST_ENTRIES) {
      const last = Math.min(all, first + MOST_ENTRIES);
      const text = `Entries ${first} to ${last - 1} of ${all} are drawn; the slider leads to the others.`;
      this.picture.append(paragraph(text));
    }
    this.markMoment();
  }

  /** Marks in the picture what is behind the moment, and the last entry, which is brought into view. */
  markMoment() {
    for (const node of this.picture.querySelectorAll("[data-moment]")) {
      const at = +node.dataset.moment;
      node.classList.toggle("later", at >= this.now);
      if (node.dataset.at) node.classList.toggle("current", at === this.now - 1);
    }
    const current = this.picture.querySelector(".current");
    if (current) this.scrollTo(current);
  }

  /** Brings an event into the visible part of the picture, without moving the page. */
  scrollTo(event) {
    const [box, it] = [this.picture.getBoundingClientRect(), event.getBoundingClientRect()];
    const by = (low, high, least, most) => {
      if (low < least + 25) return low - least - 60;
      return high > most - 25 ? high - most + 60 : 0;
    };
    this.picture.scrollBy(by(it.left, it.right, box.left, box.right), by(it.top, it.bottom, box.top, box.bottom));
  }

  /** What is said of an entry: the sentence, with the value of its message, and its line. */
  entryWords(at) {
    const place = this.places[at];
    const line = place ? ` (line ${place.line})` : "";
    return `Entry ${at}: ${entrySentence(this.history, at, this.handbook, place && place.value)}${line}.`;
  }

  tell() {
    const all = this.history.entries.length;
    this.slider.value = this.now;
    this.count.textContent = `${this.now} of ${all}`;
    const words = this.now === 0 ? "The start: the root runs." : this.entryWords(this.now - 1);
    this.slider.setAttribute("aria-valuetext", words);
    this.sentence.textContent = words;
    this.tellProcesses();
  }

  /** Until `where` has said what holds at this moment, what it said of an earlier one stands there, paler. */
  tellProcesses() {
    const { history, now, places, where, before, isOld, showPlace } = this;
    const options = { where, before, isOld, showPlace, lines: this.source.lines };
    this.table.replaceChildren(processTable(history, now, options), ...offersUnderWay(history, now, places));
  }

  zoom(by) {
    this.scale = Math.max(0, Math.min(SCALES.length - 1, this.scale + by));
    this.draw();
  }

  turn() {
    this.byCause = !this.byCause;
    this.causeButton.setAttribute("aria-pressed", this.byCause);
    this.draw();
  }

  foldAll() {
    const parents = [...this.history.children.keys()].filter((name) => name !== "0");
    this.folds = this.folds.size ? new Set() : new Set(parents);
    this.draw();
  }

  /** A click: on a head folds or unfolds, on an event steps behind it. */
  choose(target) {
    const head = target.closest("[data-fold]");
    if (head) {
      const name = head.dataset.fold;
      if (!this.folds.delete(name)) this.folds.add(name);
      this.draw();
      const again = this.picture.querySelector(`[data-fold="${name}"]`);
      if (again) again.focus();
      return;
    }
    const event = target.closest("[data-at]");
    if (event) this.step(+event.dataset.at + 1);
  }

  /** Tells what the pointer is on: at once what is known, and a moment later what `where` says of it. */
  hover(event) {
    const target = event.target.closest ? event.target.closest("[data-at]") : null;
    if (!target) {
      this.leave();
      return;
    }
    const at = +target.dataset.at;
    if (this.hovered !== at) {
      this.leave();
      this.hovered = at;
      this.hoverTimer = setTimeout(() => this.askEvent(at), this.source.known(at + 1) ? 0 : HOVER_AFTER);
      this.tellEvent(at);
    }
    this.tooltip.hidden = false;
    const box = this.place.getBoundingClientRect();
    const left = Math.min(event.clientX - box.left + 14, box.width - this.tooltip.offsetWidth);
    this.tooltip.style.left = `${Math.max(0, left)}px`;
    this.tooltip.style.top = `${event.clientY - box.top + 16}px`;
  }

  leave() {
    clearTimeout(this.hoverTimer);
    this.hovered = -1;
    this.tooltip.hidden = true;
  }

  async askEvent(at) {
    await this.source.where(at + 1, "hover");
    if (this.hovered === at) this.tellEvent(at);
  }

  tellEvent(at) {
    const { name } = this.history.entries[at];
    const process = (this.source.known(at + 1) || []).find((it) => it.name === name);
    this.tooltip.replaceChildren(...eventNodes(this.entryWords(at), this.places[at], process, this.source.lines));
  }

  /** Says something in place of the sentence of the moment. */
  say(words) {
    this.sentence.textContent = words;
  }

  /** Steps behind the first entry from here on that this line of the text made, where places are known. */
  stepToLine(line) {
    const after = this.places.findIndex((it, at) => it && it.line === line && at >= this.now);
    const index = after >= 0 ? after : this.places.findIndex((it) => it && it.line === line);
    if (index >= 0) this.step(index + 1);
    return index >= 0;
  }
}
