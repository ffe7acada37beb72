// What runs in a worker: it takes the compiled module once, and then calls of the program.
import { callProgram } from "./call.mjs";

let module = null;

self.onmessage = ({ data }) => {
  if (data.module) {
    module = data.module;
    return;
  }
  try {
    const result = callProgram(module, data.words, new Map(data.files), data.input);
    self.postMessage({ id: data.id, ...result }, [result.output.buffer, result.notes.buffer]);
  } catch (error) {
    self.postMessage({ id: data.id, failed: String(error) });
  }
};
