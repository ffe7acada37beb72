// The circle of a deadlock: processes of which each waits on a channel that the next one has in a variable.

const MOST_WAITING = 400; // processes among which a circle is looked for
const MOST_DRAWN = 12;
const CHANNEL = /0(?:\/\d+\.\d+)*#\d+/g;
const WIDE = 132; // of the place of a process in the picture
const HIGH = 24;
const BEND = 26; // how far arrows are bent outwards

/** For each process that waits on a channel the others that wait too and have that channel. */
function nextOnes(processes) {
  const waits = new Map();
  for (const { name, condition } of processes) {
    const match = /^(?:send|receive) (\S+)$/.exec(condition);
    if (match) waits.set(name, match[1]);
  }
  const holders = new Map();
  for (const { name, below } of waits.size <= MOST_WAITING ? processes : []) {
    if (!waits.has(name)) continue;
    for (const channel of new Set(below.match(CHANNEL))) holders.set(channel, [...(holders.get(channel) || []), name]);
  }
  const next = new Map();
  for (const [name, channel] of waits) next.set(name, (holders.get(channel) || []).filter((it) => it !== name));
  return { waits, next };
}

/** The shortest way from a process back to itself. */
function wayBack(start, next) {
  const from = new Map();
  const left = [start];
  for (const at of left) {
    for (const other of next.get(at) || []) {
      if (other === start) {
        const way = [start];
        for (let it = at; it !== start; it = from.get(it)) way.splice(1, 0, it);
        return way;
      }
      if (from.has(other)) continue;
      from.set(other, at);
      left.push(other);
    }
  }
  return null;
}

/** The circle of a deadlock by what `where` says at its end: of each process its name and the channel on which it
 * waits; null if there is none. One in which each channel has one holder alone is taken before others. */
export function circleOf(processes) {
  const { waits, next } = nextOnes(processes);
  const single = new Map([...next].filter(([, others]) => others.length === 1));
  for (const graph of [single, next]) {
    let best = null;
    for (const start of graph.keys()) {
      const way = wayBack(start, graph);
      if (way && (!best || way.length < best.length)) best = way;
    }
    if (best) return best.map((name) => ({ name, channel: waits.get(name) }));
  }
  return null;
}

/** The circle in words. */
export function circleWords(circle) {
  return [...circle, circle[0]].map(({ name }) => name).join(" \u2192 ");
}

/** The place of the process `at` of so many in the picture. */
function spot(at, many) {
  const angle = (2 * Math.PI * at) / many - Math.PI / 2;
  const radius = 54 + 17 * many;
  return { x: radius * Math.cos(angle) * 1.35, y: radius * Math.sin(angle) * 0.6 };
}

/** An arrow from one process to the next, bent outwards, with the channel on which it waits. */
function arrow(from, to, channel) {
  const length = Math.hypot(to.x - from.x, to.y - from.y);
  const [alongX, alongY] = [(to.x - from.x) / length, (to.y - from.y) / length];
  const [outX, outY] = [alongY, -alongX];
  const reach = 1 / Math.max(Math.abs(alongX) / (WIDE / 2 + 8), Math.abs(alongY) / (HIGH / 2 + 10));
  const start = { x: from.x + alongX * reach + outX * 6, y: from.y + alongY * reach + outY * 6 };
  const end = { x: to.x - alongX * reach + outX * 6, y: to.y - alongY * reach + outY * 6 };
  const bend = { x: (start.x + end.x) / 2 + outX * BEND, y: (start.y + end.y) / 2 + outY * BEND };
  const back = Math.hypot(end.x - bend.x, end.y - bend.y);
  const [tipX, tipY] = [(end.x - bend.x) / back, (end.y - bend.y) / back];
  const [rootX, rootY] = [end.x - tipX * 9, end.y - tipY * 9];
  const shaft = `<path d="M${start.x} ${start.y}Q${bend.x} ${bend.y} ${rootX} ${rootY}"/>`;
  const [one, other] = [`${rootX + tipY * 4} ${rootY - tipX * 4}`, `${rootX - tipY * 4} ${rootY + tipX * 4}`];
  const tip = `<path class="tip" d="M${end.x} ${end.y}L${one}L${other}z"/>`;
  const [x, y] = [(start.x + end.x) / 2 + outX * (BEND / 2 + 6), (start.y + end.y) / 2 + outY * (BEND / 2 + 10) + 4];
  const anchor = Math.abs(outX) < 0.4 ? "middle" : outX > 0 ? "start" : "end";
  return `<g class="message">${shaft}${tip}<text x="${x}" y="${y}" text-anchor="${anchor}">${channel}</text></g>`;
}

/** The picture of a circle of two or more processes as SVG; nothing if it is too large. */
export function circlePicture(circle) {
  const many = circle.length;
  if (many < 2 || many > MOST_DRAWN) return "";
  const spots = circle.map((_, at) => spot(at, many));
  const nodes = circle.map(({ name }, at) => {
    const { x, y } = spots[at];
    const box = `<rect x="${x - WIDE / 2}" y="${y - HIGH / 2}" width="${WIDE}" height="${HIGH}" rx="12"/>`;
    return `<g class="node">${box}<text class="head" x="${x}" y="${y + 4}" text-anchor="middle">${name}</text></g>`;
  });
  const arrows = circle.map(({ channel }, at) => arrow(spots[at], spots[(at + 1) % many], channel));
  const sides = [["x", WIDE / 2 + 24], ["y", HIGH / 2 + 24]].map(([axis, rim]) => {
    const values = spots.map((it) => it[axis]);
    return { least: Math.min(...values) - rim, most: Math.max(...values) + rim };
  });
  const [[left, wide], [top, high]] = sides.map(({ least, most }) => [least, most - least].map(Math.round));
  const size = `viewBox="${left} ${top} ${wide} ${high}" width="${wide}" height="${high}"`;
  const label = `the circle ${circleWords(circle)}`;
  return `<svg class="circle" role="img" aria-label="${label}" ${size}>${arrows.join("")}${nodes.join("")}</svg>`;
}
