// The options of the program, as fields with their ranges.
import { element } from "./elements.mjs";

/** Which options a command takes. */
const TAKES = {
  run: ["workers", "ticks", "depth", "cells", "processes", "channels", "entries", "output", "show"],
  replay: ["ticks", "depth", "cells", "processes", "channels", "entries", "output"],
  gen: ["workers"],
};
TAKES.witness = TAKES.exec = TAKES.run.filter((name) => name !== "show");
TAKES.trace = TAKES.where = TAKES.replay;

const plain = (text) => text.replace(/[,\s]/g, "");

/** The fields of the options in `place`; `rows` has of each its name, what it is, its default, least and greatest. */
export class Options {
  constructor(place, rows, onChange) {
    this.fields = new Map();
    for (const { name, says, usual, least, greatest } of rows) {
      if (name === "show") continue;
      const [placeholder, from, to] = [usual, least, greatest].map((it) => Number(it).toLocaleString("en"));
      const field = element("input", { type: "number", id: `option-${name}`, min: least, max: greatest, placeholder });
      field.oninput = () => onChange();
      place.append(element("label", {}, element("span", { textContent: `${name}: ${says}, ${from} to ${to}` }), field));
      this.fields.set(name, field);
    }
  }

  /** The words of the options that are set, for a command. */
  words(command) {
    const words = [];
    for (const [name, field] of this.fields)
      if ((TAKES[command] || []).includes(name) && field.value !== "") words.push(`--${name}`, plain(field.value));
    return words;
  }

  /** What is wrong with a field, in words, or nothing. */
  wrong(command) {
    for (const [name, field] of this.fields)
      if ((TAKES[command] || []).includes(name) && !field.checkValidity())
        return `The option ${name} takes a whole number from ${field.min} to ${field.max}.`;
    return "";
  }

  /** Sets the fields by words as `--ticks 1000`; those that are not named are emptied. */
  put(words) {
    for (const field of this.fields.values()) field.value = "";
    words.forEach((word, at) => {
      const field = this.fields.get(word.slice(2));
      if (word.startsWith("--") && field) field.value = words[at + 1] || "";
    });
  }

  /** The words of all options that are set. */
  all() {
    const set = [...this.fields].filter(([, field]) => field.value !== "");
    return set.flatMap(([name, field]) => [`--${name}`, plain(field.value)]);
  }
}
