// The picture of a run: time goes down, a line is a process, a bar a fork or a join, an arrow a message.
import { Lanes } from "./lanes.mjs";

const LANE = 92;
const ROW = 22;
const LEFT = 56;
const TOP = 40;
const LETTER = 6.7; // the width of a letter
export const MOST_ENTRIES = 400;

const escape = (text) => String(text).replace(/[&<>"]/g, (it) => `&#${it.charCodeAt(0)};`);
const short = (name) => (name === "0" ? "0" : "/" + name.slice(name.lastIndexOf("/") + 1));

/** What is to be drawn: a window of entries, their rows, the lanes, what is marked, and the values of messages. What
 * belongs to an entry has its index as `data-moment`. */
export class Picture {
  constructor(history, { folds, byCause, first, marks, places }) {
    this.history = history;
    this.places = places;
    this.lanes = new Lanes(history, folds);
    this.first = first;
    this.last = Math.min(history.entries.length, first + MOST_ENTRIES);
    this.marks = marks;
    const rows = byCause ? history.rowsByCause() : null;
    const row = (at) => (rows ? rows[at] : at);
    let least = Infinity;
    this.rows = 0;
    for (let at = this.first; at < this.last; at++) least = Math.min(least, row(at));
    this.rowOf = (at) => Math.max(-1, row(at) - least);
    for (let at = this.first; at < this.last; at++) this.rows = Math.max(this.rows, this.rowOf(at) + 1);
    this.visible = new Set(this.lanes.heads.map(({ name }) => name));
  }

  get width() {
    return LEFT + this.lanes.width * LANE;
  }

  get height() {
    return TOP + (this.rows + 1) * ROW;
  }

  x(name) {
    return LEFT + this.lanes.lane.get(name) * LANE;
  }

  y(at) {
    if (at < this.first) return TOP;
    if (at >= this.last) return TOP + this.rows * ROW + ROW / 2;
    return TOP + (this.rowOf(at) + 0.7) * ROW;
  }

  isInside(at) {
    return at >= this.first && at < this.last;
  }

  svg() {
    return [
      ...this.lines(), ...this.forks(), ...this.joins(), ...this.waits(), ...this.messages(), ...this.events(),
      ...this.heads(),
    ].join("\n");
  }

  heads() {
    return this.lanes.heads.map(({ name, at, isFolded, canFold }) => {
      const x = LEFT + at * LANE;
      const sign = canFold ? (isFolded ? " +" : " \u2212") : "";
      const role = canFold
        ? ` role="button" tabindex="0" data-fold="${name}" aria-expanded="${!isFolded}" aria-label="process ${name}"`
        : "";
      const birth = this.history.births.get(name);
      const y = birth < this.first ? TOP - 14 : this.y(birth) + 1;
      const anchor = birth < this.first ? `x="${x}" text-anchor="middle"` : `x="${x + 6}"`;
      const description = `<title>${name}</title>${escape(short(name) + sign)}`;
      return `<text class="head" ${anchor} y="${y - 4}"${role}>${description}</text>`;
    });
  }

  /** Where each process begins and ends. */
  lines() {
    const { births, ends } = this.history;
    return this.lanes.heads.flatMap(({ name }) => {
      const [begin, end] = [births.get(name), ends.get(name) ?? Infinity];
      if (begin >= this.last || end < this.first) return [];
      const x = this.x(name);
      return [line("life", x, x, this.y(begin), this.y(end))];
    });
  }

  forks() {
    const parts = [];
    for (let at = this.first; at < this.last; at++) {
      const entry = this.history.entries[at];
      if (entry.kind !== "fork") continue;
      const xs = this.history.childrenOfFork.get(at).map((name) => this.x(name));
      const far = xs.reduce((most, x) => Math.max(most, x), this.x(entry.name));
      parts.push(line("bar", this.x(entry.name), far, this.y(at), this.y(at), at));
    }
    return parts;
  }

  joins() {
    const { entries, forkOfJoin } = this.history;
    const parts = [];
    for (let at = this.first; at < this.last; at++) {
      if (!forkOfJoin.has(at)) continue;
      const [from, to] = [at, forkOfJoin.get(at)].map((it) => this.x(entries[it].name));
      parts.push(line("join", from, to, this.y(at), this.y(at), at));
    }
    return parts;
  }

  /** An offer that waits: dashes from it to the one that meets it, or to the end of what is shown. */
  waits() {
    const { entries, partners } = this.history;
    const offers = this.history.pendingAfter(this.first);
    for (let at = this.first; at < this.last; at++)
      if (entries[at].kind === "send" || entries[at].kind === "receive") offers.push(at);
    return offers.flatMap((at) => {
      const other = partners.get(at);
      if (other < at) return [];
      const x = this.x(entries[at].name);
      return [line(other === undefined ? "stuck" : "wait", x, x, this.y(at), this.y(other ?? Infinity), at)];
    });
  }

  messages() {
    const parts = [];
    for (let at = this.first; at < this.last; at++) {
      const message = this.history.message(at);
      if (!message || message.last !== at) continue;
      const [from, to] = [message.sent, message.received].map((it) => this.x(this.history.entries[it].name));
      if (from === to) continue;
      const side = from < to ? -1 : 1;
      const middle = (from + to) / 2;
      const y = this.y(at);
      const tip = `<path class="tip" d="M${to + side * 5} ${y}l${side * 8} -4v8z"/>`;
      const label = this.labelOfMessage(message, Math.abs(from - to) - 24);
      const name = `<text x="${middle}" y="${y - 3}" text-anchor="middle">${escape(label)}</text>`;
      const shaft = `<path d="M${from - side * 5} ${y}H${to + side * 7}"/>`;
      parts.push(`<g class="message" data-moment="${at}">${shaft}${tip}${name}</g>`);
    }
    return parts;
  }

  /** The channel of a message and its value, if that is known and there is room for it. */
  labelOfMessage({ sent }, room) {
    const channel = shortChannel(this.history.entries[sent].argument);
    const value = this.places[sent] && this.places[sent].value;
    const whole = value ? `${channel}: ${value}` : channel;
    return whole.length * LETTER <= room ? whole : channel;
  }

  events() {
    const parts = [];
    for (let at = this.first; at < this.last; at++) {
      const entry = this.history.entries[at];
      const [x, y] = [this.x(entry.name), this.y(at)];
      const isOwn = this.visible.has(entry.name);
      const isMarked = this.marks.has(at);
      const classes = `event ${entry.kind}${isMarked ? " marked" : ""}`;
      const touch = `<rect class="touch" x="${x - 14}" y="${y - ROW / 2}" width="28" height="${ROW}"/>`;
      const shape = shapeOf(entry.kind === "fault" ? "cross" : isMarked ? "square" : "circle", x, y, isOwn ? 4.5 : 2.5);
      const label = isOwn ? labelOf(entry) : "";
      const under = entry.kind === "fork" ? 13 : 4;
      const text = label ? `<text x="${x + 8}" y="${y + under}">${escape(label)}</text>` : "";
      parts.push(`<g class="${classes}" data-at="${at}" data-moment="${at}">${touch}${shape}${text}</g>`);
    }
    return parts;
  }
}

function line(kind, x1, x2, y1, y2, at) {
  const moment = at === undefined ? "" : ` data-moment="${at}"`;
  return `<line class="${kind}" x1="${x1}" x2="${x2}" y1="${y1}" y2="${y2}"${moment}/>`;
}

function shapeOf(shape, x, y, size) {
  if (shape === "cross") return `<path d="M${x - 6} ${y - 6}L${x + 6} ${y + 6}M${x - 6} ${y + 6}L${x + 6} ${y - 6}"/>`;
  if (shape === "square") return `<rect x="${x - 5.5}" y="${y - 5.5}" width="11" height="11"/>`;
  return `<circle cx="${x}" cy="${y}" r="${size}"/>`;
}

function labelOf(entry) {
  if (entry.kind === "fork") return `fork ${entry.argument}`;
  if (entry.kind === "fault") return `fault ${entry.argument}`;
  return entry.kind === "send" || entry.kind === "receive" ? "" : entry.kind;
}

/** A channel with its process as that stands above its line; one of the root by its number alone. */
function shortChannel(channel) {
  const [name, number] = channel.split("#");
  return `${name === "0" ? "" : short(name)}#${number}`;
}

/** The picture as SVG, so many times as large. */
export function svgOf(picture, scale) {
  const [wide, high] = [picture.width + 30, picture.height];
  const description = `role="img" aria-label="the processes and their messages, time going down"`;
  const size = `width="${Math.round(wide * scale)}" height="${Math.round(high * scale)}"`;
  const head = `<svg xmlns="http://www.w3.org/2000/svg" ${description} viewBox="0 0 ${wide} ${high}" ${size}>`;
  return `${head}\n${picture.svg()}\n</svg>`;
}
