// Where a text is kept: the browser's storage, a link, files.

const STORAGE_KEY = "superpascal";

/** What the storage of the browser holds, or nothing where there is none. */
export function readStorage() {
  try {
    return JSON.parse(localStorage.getItem(STORAGE_KEY)) || {};
  } catch {
    return {};
  }
}

/** Adds to what the storage holds; says whether it could. */
export function writeStorage(part) {
  try {
    localStorage.setItem(STORAGE_KEY, JSON.stringify({ ...readStorage(), ...part }));
    return true;
  } catch {
    return false;
  }
}

async function through(bytes, stream) {
  return new Uint8Array(await new Response(new Blob([bytes]).stream().pipeThrough(stream)).arrayBuffer());
}

/** The part of a link behind `#`: text, input and options as JSON, compressed, in letters of base64 for links. */
export async function encodeLink(state) {
  const packed = await through(new TextEncoder().encode(JSON.stringify(state)), new CompressionStream("deflate-raw"));
  let letters = "";
  for (let at = 0; at < packed.length; at += 8192) letters += String.fromCharCode(...packed.subarray(at, at + 8192));
  return "s=" + btoa(letters).replace(/\+/g, "-").replace(/\//g, "_").replace(/=+$/, "");
}

/** What a link carries behind `#`, or null where it carries nothing that can be read. */
export async function decodeLink(hash) {
  const match = /^#?s=([\w-]+)$/.exec(hash);
  if (!match) return null;
  try {
    const letters = atob(match[1].replace(/-/g, "+").replace(/_/g, "/"));
    const packed = Uint8Array.from(letters, (letter) => letter.charCodeAt(0));
    const state = JSON.parse(new TextDecoder().decode(await through(packed, new DecompressionStream("deflate-raw"))));
    return typeof state.text === "string" ? state : null;
  } catch {
    return null;
  }
}

/** Hands bytes or a text to the browser as a file to save. */
export function save(name, content) {
  const link = document.createElement("a");
  link.href = URL.createObjectURL(new Blob([content], { type: "application/octet-stream" }));
  link.download = name;
  link.click();
  setTimeout(() => URL.revokeObjectURL(link.href), 60000);
}

const MEGABYTE = 1048576;
const MOST = { text: MEGABYTE, input: 16 * MEGABYTE, journal: 64 * MEGABYTE, code: 64 * MEGABYTE };

/** What kind of file this is, by its first line and its name. */
export function kindOf(name, text) {
  if (text.startsWith("superpascal journal ")) return "journal";
  if (text.startsWith("superpascal code ")) return "code";
  return /\.(in|dat|txt)$/i.test(name) && !/^\s*(\{[^}]*\}\s*)*program\b/i.test(text) ? "input" : "text";
}

/** Why these many bytes are too much for a text, an input, a journal or a code file, in words, or nothing. */
export function tooLong(kind, size) {
  if (size <= MOST[kind]) return "";
  const what = { text: "A text", input: "An input", journal: "A journal", code: "A code file" }[kind];
  return `${what} may have ${MOST[kind].toLocaleString("en")} bytes at most; this has ${size.toLocaleString("en")}.`;
}

/** Reads a file: its kind and its text, or what is wrong with it in words. */
export async function readFile(file) {
  if (file.size > MOST.journal) return { wrong: `${file.name}: ${tooLong("journal", file.size)}` };
  const bytes = new Uint8Array(await file.arrayBuffer());
  let text;
  try {
    text = new TextDecoder("utf-8", { fatal: true, ignoreBOM: true }).decode(bytes);
  } catch {
    return { wrong: `${file.name} is no text: its bytes are no UTF-8.` };
  }
  if (text.includes("\0")) return { wrong: `${file.name} is no text: it has a byte 0.` };
  const kind = kindOf(file.name, text);
  const wrong = tooLong(kind, file.size);
  return wrong ? { wrong: `${file.name}: ${wrong}` } : { kind, text, name: file.name };
}
