// What is told of the processes at a moment of a run: a table of them with their places, calls and variables, the
// offers under way, and what stands beside an event under the pointer.
import { button, element, inCode, paragraph } from "./elements.mjs";
import { stateSentence } from "./sentences.mjs";

const MOST_ROWS = 60;
const MOST_CALLS = 12;
const MOST_VARIABLES = 40;
const MOST_LETTERS = 48; // of a statement

/** The beginning of the statement at a place of a text. */
export function statementAt(lines, { line, column }) {
  const bytes = new TextEncoder().encode(lines[line - 1] || "").slice(column - 1);
  const text = new TextDecoder().decode(bytes).trim().replace(/;$/, "");
  return text.length > MOST_LETTERS ? `${text.slice(0, MOST_LETTERS)}\u2026` : text;
}

/** The value that a variable had in the same call of its process at the moment before, or undefined. */
function valueBefore(then, process, index, name) {
  const call = then && then.calls[then.calls.length - process.calls.length + index];
  if (!call || call.block !== process.calls[index].block) return undefined;
  const found = call.variables.find((it) => it.name === name);
  return found && found.value;
}

/** A variable with its value, which is marked if it was another one at the moment before; screen readers tell that. */
function variableNode({ name, value }, old) {
  const node = element("span", { className: "variable" }, `${name} = `);
  if (old === undefined || old === value) node.append(value);
  else {
    const was = `was ${old}`;
    const unseen = element("span", { className: "unseen", textContent: ` (${was})` });
    node.append(element("mark", { textContent: value, title: was }), unseen);
  }
  return node;
}

/** A call with its variables; `then` is the process at the moment before. */
function callNode(process, index, then, showPlace) {
  const call = process.calls[index];
  const node = element("div", { className: "call" }, element("b", { textContent: call.block }));
  if (call.line) {
    const title = `called at line ${call.line}`;
    const go = button(`from ${call.line}`, () => showPlace(call), { title, className: "place" });
    node.append(" ", go);
  }
  for (const variable of call.variables.slice(0, MOST_VARIABLES))
    node.append(" ", variableNode(variable, valueBefore(then, process, index, variable.name)));
  const left = call.variables.length - MOST_VARIABLES;
  if (left > 0) node.append(` and ${left} more`);
  return node;
}

function callNodes(process, then, showPlace) {
  const nodes = process.calls.slice(0, MOST_CALLS).map((_, index) => callNode(process, index, then, showPlace));
  const left = process.calls.length - MOST_CALLS;
  return left > 0 ? [...nodes, paragraph(`and ${left} more calls`)] : nodes;
}

/** A cell, and a row of cells. Their roles are said, as a narrow screen has them below each other. */
const cell = (properties, ...inside) => element("td", { role: "cell", ...properties }, ...inside);
const rowOfCells = (properties, ...cells) => element("tr", { role: "row", ...properties }, ...cells);
const headOf = (textContent, scope, role) => element("th", { textContent, scope, role });

/** The cells of a process for its line and its calls. */
function cellsOf(process, then, { lines, showPlace }) {
  if (!process) return [cell(), cell()];
  const { line } = process;
  const go = button(String(line), () => showPlace(process), { title: `line ${line} in the text`, className: "place" });
  const at = cell({}, go, " ", inCode(statementAt(lines, process)));
  return [at, cell({}, ...callNodes(process, then, showPlace))];
}

/** The names that get a row: the first ones, and that of the process of the last entry. */
function namesOfRows(names, acting) {
  const shown = names.slice(0, MOST_ROWS);
  return names.includes(acting) && !shown.includes(acting) ? [acting, ...shown] : shown;
}

/** The table of the processes that have not ended behind the first `now` entries. `options` has what `where` says of
 * the moment and of the one before (`where`, `before`; null if it is not known), the `lines` of the text, `showPlace`
 * and whether `where` is that of an earlier moment (`isOld`). */
export function processTable(history, now, options) {
  const states = history.stateAfter(now);
  const names = history.namesInOrder.filter((name) => states.has(name) && states.get(name).kind !== "end");
  if (!names.length) return paragraph("All processes have ended.");
  const { where, before, isOld } = options;
  const heads = ["process", "is at", ...(where ? ["line", "calls and variables"] : [])];
  const table = element("table", { className: isOld ? "is-old" : "", role: "table" });
  table.setAttribute("aria-busy", Boolean(isOld));
  table.append(element("caption", { textContent: "Processes that have not ended" }),
    rowOfCells({ className: "heads" }, ...heads.map((text) => headOf(text, "col", "columnheader"))));
  const acting = now > 0 ? history.entries[now - 1].name : "";
  const shown = namesOfRows(names, acting);
  const [standing, then] = [where, before].map((it) => new Map((it || []).map((process) => [process.name, process])));
  for (const name of shown) {
    const state = states.get(name);
    const row = rowOfCells({ className: name === acting ? "acting" : "" }, headOf(name, "row", "rowheader"),
      cell({ textContent: stateSentence(state), className: state.kind }));
    if (where) row.append(...cellsOf(standing.get(name), then.get(name), options));
    table.append(row);
  }
  const left = names.length - shown.length;
  if (left > 0) table.append(rowOfCells({}, cell({ colSpan: heads.length, textContent: `and ${left} more` })));
  return table;
}

/** The offers that nobody has met behind the first `now` entries, with their values by `places`. */
export function offersUnderWay(history, now, places) {
  const waiting = history.pendingAfter(now);
  if (!waiting.length) return [];
  const list = element("ul");
  for (const at of waiting.slice(0, MOST_ROWS)) {
    const entry = history.entries[at];
    const value = places[at] && places[at].value ? ` ${places[at].value}` : "";
    const verb = entry.kind === "send" ? "a message" + value + " of" : "a receive of";
    list.append(element("li", { textContent: `${verb} ${entry.name} on ${entry.argument}, entry ${at}` }));
  }
  const left = waiting.length - MOST_ROWS;
  if (left > 0) list.append(element("li", { textContent: `and ${left} more` }));
  return [element("h3", { textContent: "Offers under way" }), list];
}

/** What stands beside an event under the pointer: its sentence, its statement, and the calls and variables of its
 * process behind it, if they are known. */
export function eventNodes(sentence, place, process, lines) {
  const nodes = [element("div", { textContent: sentence })];
  if (place) nodes.push(element("div", {}, inCode(`${place.line}: ${statementAt(lines, place)}`)));
  for (const { block, variables } of process ? process.calls.slice(0, MOST_CALLS) : []) {
    const values = variables.slice(0, MOST_CALLS).map(({ name, value }) => `${name} = ${value}`);
    const more = variables.length > MOST_CALLS ? ", \u2026" : "";
    const name = element("b", { textContent: block });
    nodes.push(element("div", {}, name, values.length ? ": " : "", values.join(", ") + more));
  }
  return nodes;
}
