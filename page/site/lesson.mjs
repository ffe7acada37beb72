// The tutorial in the page: its steps, each with its text for the editor, its commands and a task.
import { button, element, inCode, paragraph } from "./elements.mjs";

/** Whether what a call came to is what a task wants: each part that `wants` names. */
export function isSolved(wants, { command, outcome, output, entries }) {
  if (wants.command && wants.command !== command) return false;
  if ("accepted" in wants && outcome.head[0] !== "accepted" && !outcome.end) return false;
  if (wants.refused && (!outcome.refused || outcome.refused.rule !== wants.refused)) return false;
  if ("output" in wants && output !== wants.output) return false;
  if (wants.end && (!outcome.end || outcome.end.kind !== wants.end)) return false;
  if (wants.verdict && (!outcome.verdict || outcome.verdict.kind !== wants.verdict)) return false;
  const sends = (entries || []).filter((entry) => entry.kind === "send").length;
  return !wants.sends || sends >= wants.sends;
}

/** The tutorial in `place`. `actions` has `put(text, input)` and `perform(call)`; `step` is the one at the start. */
export class Tutorial {
  constructor(place, lessons, actions, step, onChange) {
    Object.assign(this, { place, lessons, actions, onChange });
    this.at = Math.max(0, Math.min(lessons.length - 1, step || 0));
  }

  show() {
    const lesson = this.lessons[this.at];
    const choice = element("select", { onchange: () => this.go(choice.selectedIndex) });
    choice.setAttribute("aria-label", "step");
    this.lessons.forEach((it) => choice.add(new Option(it.title)));
    choice.selectedIndex = this.at;
    const isLast = this.at === this.lessons.length - 1;
    const back = button("Back", () => this.go(this.at - 1), { disabled: this.at === 0 });
    const next = button("Next", () => this.go(this.at + 1), { disabled: isLast });
    const title = element("h2", { textContent: lesson.title, tabIndex: -1 });
    this.task = element("p", { className: "task" }, element("b", { textContent: "Task. " }), lesson.task.says);
    const parts = lesson.parts.map((part) => this.part(part));
    this.place.replaceChildren(element("div", { className: "tools" }, choice, back, next), title, ...parts, this.task);
  }

  part(part) {
    if (part.kind === "words") {
      return element("p", { innerHTML: part.html }); // (of our own build)
    }
    if (part.kind === "text") {
      const put = () => this.actions.put(part.text);
      return paragraph(button(`Put ${part.name} into the editor`, put, { className: "main" }));
    }
    const block = element("div");
    for (const { shown, printed, call } of part.commands) {
      if (call) {
        const words = [call.command, call.file, ...call.options].join(" ");
        block.append(paragraph(button(`\u25b6 ${words}`, () => this.actions.perform(call))));
      } else block.append(paragraph(inCode(shown)));
      if (printed) block.append(element("pre", { textContent: printed }));
    }
    return block;
  }

  go(at) {
    this.at = at;
    this.show();
    this.place.scrollTop = 0;
    this.place.querySelector("h2").focus();
    this.onChange(at);
  }

  /** Looks whether what a call came to solves the task of the step that is shown. */
  look(result) {
    if (this.place.hidden || !isSolved(this.lessons[this.at].task.wants, result)) return;
    if (this.task.classList.contains("is-done")) return;
    this.task.classList.add("is-done");
    this.task.append(element("b", { textContent: " \u2713 Done." }));
  }
}
