// Lanes of a picture: a place across for each process that is shown. A folded process has its children in its own lane.

export const MOST_LANES = 40;

/** The lanes of a history: for each process its lane, and the heads of the lanes. `folds` has the names of the
 * processes whose children are not shown. Of the children of one process only so many are shown that all fit. */
export class Lanes {
  constructor(history, folds) {
    this.history = history;
    this.folds = folds;
    this.lane = new Map();
    this.heads = [];
    this.width = 0;
    this.place("0", 0, MOST_LANES);
  }

  forksOf(name) {
    const forks = new Map();
    for (const child of this.history.children.get(name) || []) {
      const fork = child.slice(child.lastIndexOf("/") + 1).split(".")[0];
      if (!forks.has(fork)) forks.set(fork, []);
      forks.get(fork).push(child);
    }
    return [...forks.values()];
  }

  /** Gives the process this lane and its children those behind it; how many lanes they take, `room` at most. The
   * children of a later fork take the same lanes again. */
  place(name, at, room) {
    const forks = this.forksOf(name);
    this.lane.set(name, at);
    this.width = Math.max(this.width, at + 1);
    const isFolded = this.folds.has(name) || (forks.length > 0 && room < 2);
    this.heads.push({ name, at, isFolded, canFold: forks.length > 0 && room >= 2 });
    if (isFolded) {
      this.hide(forks.flat(), at);
      return 1;
    }
    let most = 1;
    for (const children of forks) {
      let used = 1;
      children.forEach((child, index) => {
        const left = room - used;
        if (left <= 0) this.hide([child], at + room - 1);
        else used += this.place(child, at + used, Math.max(1, left - Math.min(left - 1, children.length - index - 1)));
      });
      most = Math.max(most, used);
    }
    return most;
  }

  /** Puts processes and all below them into one lane. */
  hide(names, at) {
    for (const name of names) {
      this.lane.set(name, at);
      this.hide(this.history.children.get(name) || [], at);
    }
  }
}

/** The processes that are folded at first: children are shown down to as deep as they fit. */
export function initialFolds(history) {
  const depths = history.processes.map(({ name }) => [name, name.split("/").length - 1]);
  const parents = depths.filter(([name]) => history.children.has(name));
  const foldsAt = (deep) => new Set(parents.filter(([, depth]) => depth === deep).map(([name]) => name));
  let [low, high] = [1, depths.reduce((most, [, depth]) => Math.max(most, depth), 1)];
  while (low < high) {
    const middle = Math.ceil((low + high) / 2);
    if (widthOf(history, "0", foldsAt(middle)) <= MOST_LANES) low = middle;
    else high = middle - 1;
  }
  return foldsAt(low);
}

/** How many lanes a process takes with all that is shown below it. */
function widthOf(history, name, folds) {
  if (folds.has(name)) return 1;
  const sums = new Map();
  for (const child of history.children.get(name) || []) {
    const fork = child.slice(child.lastIndexOf("/") + 1).split(".")[0];
    sums.set(fork, (sums.get(fork) || 0) + widthOf(history, child, folds));
  }
  return 1 + Math.max(0, ...sums.values());
}
