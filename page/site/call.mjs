// One call of the program: an instance of its module with the words, the files and the input that it is given.

class Ended {
  constructor(status) {
    this.status = status;
  }
}

/** The bytes of all parts, one after the other. */
function concat(parts) {
  const all = new Uint8Array(parts.reduce((sum, part) => sum + part.length, 0));
  let at = 0;
  for (const part of parts) {
    all.set(part, at);
    at += part.length;
  }
  return all;
}

/** The five functions that page/system asks of the page. `state.memory` is set when the instance is there. */
function imports(state) {
  const bytes = (at, length) => new Uint8Array(state.memory.buffer, Number(at), Number(length));
  return {
    arg(i, to, room) {
      const word = state.words[Number(i)];
      if (!word) return -1n;
      if (word.length > Number(room)) return -2n;
      bytes(to, word.length).set(word);
      return BigInt(word.length);
    },
    open(name, length) {
      const file = state.files.get(new TextDecoder().decode(bytes(name, length).slice()));
      if (!file) return -1;
      state.open.push({ bytes: file, at: 0 });
      return state.open.length - 1;
    },
    read(stream, to, room) {
      const file = state.open[stream];
      const part = file.bytes.subarray(file.at, file.at + Number(room));
      bytes(to, part.length).set(part);
      file.at += part.length;
      return BigInt(part.length);
    },
    write(stream, from, length) {
      state.streams[stream].push(bytes(from, length).slice());
      return length;
    },
    exit(status) {
      throw new Ended(status);
    },
  };
}

/** Calls the program on words (texts), files (a Map of names to bytes) and an input (bytes). Gives its status, output
 * and notes (bytes), the milliseconds that it took and the bytes of its memory. Throws what the browser throws where it
 * has too little stack or memory. */
export function callProgram(module, words, files, input) {
  const encoder = new TextEncoder();
  const state = {
    words: ["superpascal", ...words].map((word) => encoder.encode(word)),
    files,
    open: [{ bytes: input, at: 0 }, null, null],
    streams: [null, [], []],
    memory: null,
  };
  const instance = new WebAssembly.Instance(module, { page: imports(state) });
  const main = instance.exports.main;
  state.memory = instance.exports.memory;
  const start = performance.now();
  let status;
  try {
    status = main.length === 2 ? main(0, 0n) : main();
  } catch (error) {
    if (!(error instanceof Ended)) throw error;
    status = error.status;
  }
  const ms = performance.now() - start;
  const memory = state.memory.buffer.byteLength;
  return { status, output: concat(state.streams[1]), notes: concat(state.streams[2]), ms, memory };
}
