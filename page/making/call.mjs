// node call.mjs page.wasm WORDS <INPUT: calls the program of the page on files of this folder, as the native one is.
import fs from "node:fs";
import { callProgram } from "../site/call.mjs";

const [wasm, ...words] = process.argv.slice(2);
const module = new WebAssembly.Module(fs.readFileSync(wasm));
const files = new Map();
for (const word of words) if (fs.existsSync(word)) files.set(word, new Uint8Array(fs.readFileSync(word)));
const reads = ["run", "replay", "trace", "where", "witness", "exec"].includes(words[0]);
const got = callProgram(module, words, files, reads ? new Uint8Array(fs.readFileSync(0)) : new Uint8Array());
fs.writeSync(1, got.output);
fs.writeSync(2, got.notes);
process.exitCode = got.status;
