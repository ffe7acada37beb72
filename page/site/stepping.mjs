// Stepping over the entries of a run: the lines of its processes in the text, and the way from a line to an entry.
import { page } from "./state.mjs";

const MOST_NAMES = 8;

/** Whether the text in the editor is still that of the run that a view shows. */
const isTextOf = (view) => page.editor.text === view.source.text;

/** The lines at which processes stand, each once, with their names. */
function placesOf(processes) {
  const found = new Map();
  for (const { line, column, name } of processes) {
    const key = `${line}:${column}`;
    if (!found.has(key)) found.set(key, { line, column, look: "other", names: [] });
    found.get(key).names.push(name);
  }
  return [...found.values()].map((it) => {
    const names = it.names.slice(0, MOST_NAMES).join(", ");
    const left = it.names.length - MOST_NAMES;
    return { ...it, title: `at this place: ${names}${left > 0 ? ` and ${left} more` : ""}` };
  });
}

/** Marks in the text the place of the last entry of a view's moment, and those of all processes if they are known. */
function markPlaces(view, processes) {
  if (!isTextOf(view)) return;
  const entry = view.now > 0 ? view.places[view.now - 1] : null;
  const current = entry ? [{ ...entry, look: "current", title: "the last entry" }] : [];
  page.editor.showPlaces([...placesOf(processes || []), ...current]);
}

/** Shows a place of the text of a view's run in the editor. */
export function showPlace(view, { line, column }) {
  if (isTextOf(view)) page.editor.goTo(line, column);
}

/** After a step of a view: the places of its moment are marked in the text; calls and variables are asked for, and then
 * those of the moment before, so that what has changed is marked. */
export async function onStep(view) {
  page.stepped = view;
  const { now, history, source } = view;
  const isThere = () => view.now === now && view.history === history;
  markPlaces(view, source.known(now));
  const processes = await source.where(now);
  if (!processes || !isThere()) return;
  markPlaces(view, processes);
  view.putWhere(processes);
  const before = now > 0 ? await source.where(now - 1, "before") : null;
  if (before && isThere()) view.putWhere(processes, before);
}

/** Steps behind the next entry that this line of the text made, in the view that was last stepped, or in the other. */
export function stepToLine(line) {
  const views = [page.view, page.otherView].filter((view) => view.history && isTextOf(view));
  const first = views.find((view) => view === page.stepped) || views[0];
  if (!first) return;
  if (first.stepToLine(line) || views.some((view) => view.stepToLine(line))) return;
  if (first.places.length) first.say(`Line ${line} made no entry of this run.`);
}
