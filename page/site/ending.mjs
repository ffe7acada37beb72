// What the places of a run tell of its end: the circle of a deadlock, the two offers of a race, the place of a fault.
import { circleOf, circlePicture, circleWords } from "./circle.mjs";
import { $, button, element, inCode, paragraph } from "./elements.mjs";
import { statementAt } from "./processes.mjs";

/** The two offers whose order is left to the schedule, each with its line and its value. */
function tellRace(view, { earlier, later }) {
  const offers = [earlier, later].map((at) => {
    const { name, kind } = view.history.entries[at];
    const place = view.places[at];
    const go = button(`entry ${at}`, () => view.step(at + 1), { className: "place", title: view.entryWords(at) });
    const does = `${name} ${kind}s${place && place.value ? ` ${place.value}` : ""}`;
    const statement = place ? [`, line ${place.line}: `, inCode(statementAt(view.source.lines, place))] : [];
    return element("li", {}, go, ` ${does}`, ...statement);
  });
  $("details").append(paragraph("The two offers, of which either can come first:"), element("ul", {}, ...offers));
}

/** The circle, where each waits on a channel that the next one has. */
async function tellDeadlock(view) {
  const { history } = view;
  const processes = await view.source.where(history.entries.length, "ending");
  const circle = processes && circleOf(processes);
  if (!circle || view.history !== history) return;
  const words = "The circle, in which each waits on a channel that the next one has: ";
  $("details").append(paragraph(words, inCode(circleWords(circle))));
  $("details").append(element("div", { innerHTML: circlePicture(circle) }));
}

/** The statement that met the fault, and the calls that led there. */
async function tellFault(view) {
  const { history } = view;
  const at = history.entries.findIndex((entry) => entry.kind === "fault");
  const place = view.places[at];
  if (!place) return;
  const statement = inCode(statementAt(view.source.lines, place));
  const where = `line ${place.line}, column ${place.column}`;
  const go = button(where, () => view.showPlace(place), { className: "place" });
  const told = paragraph("It was met at ", go, ": ", statement);
  $("details").prepend(told);
  const processes = await view.source.where(at + 1, "ending");
  const process = processes && processes.find(({ name }) => name === history.entries[at].name);
  if (!process || view.history !== history) return;
  const calls = process.calls.filter(({ line }) => line).map(({ block, line }) => `${block}, called at line ${line}`);
  if (calls.length) told.append(`, in ${calls.slice(0, 8).join("; in ")}${calls.length > 8 ? "; \u2026" : ""}`);
}

/** Adds to the details of a run what its places tell of its end. */
export function tellEnding(view, outcome) {
  const { end, verdict } = outcome;
  if (verdict && verdict.kind === "race") tellRace(view, verdict);
  else if (end && end.kind === "deadlock") tellDeadlock(view);
  else if (end && end.kind === "fault") tellFault(view);
}
