// node memory.mjs page.wasm: the memory of the page is refused at many sizes; each call must end out of memory with
// status 8, or as with ample memory, and never in a trap.
import fs from "node:fs";
import { callProgram } from "../../page/site/call.mjs";

/** A number of LEB128, of five bytes. */
const five = (n) => [0, 7, 14, 21].map((shift) => ((n >> shift) & 127) | 128).concat((n >>> 28) & 15);

/** The module with at most this number of units of memory: in its memory section, whose limits get five bytes each. */
function limited(bytes, units) {
  let at = 8;
  const number = () => {
    let value = 0;
    for (let shift = 0; ; shift += 7) {
      const byte = bytes[at++];
      value |= (byte & 127) << shift;
      if (byte < 128) return value;
    }
  };
  while (at < bytes.length) {
    const start = at;
    const kind = bytes[at++];
    const end = number() + at;
    if (kind === 5) {
      number();
      at++;
      const least = number();
      const body = [1, 1, ...five(least), ...five(Math.max(least, units))];
      const parts = [bytes.subarray(0, start), Buffer.from([kind, body.length, ...body]), bytes.subarray(end)];
      return { least, module: new WebAssembly.Module(Buffer.concat(parts)) };
    }
    at = end;
  }
  throw new Error("the module has no memory");
}

const bytes = fs.readFileSync(process.argv[2]);
const text = Buffer.from(`program a; type t = *(integer); v = array [1..20000] of integer; var c: t; a: v; x: integer;
procedure p(k: integer; d: t); var b: v; begin b[k] := k; send(d, b[k]) end;
begin open(c); parallel p(1, c) | begin receive(c, x); writeln(x) end end end.
`);
const { least } = limited(bytes, 0);
const counts = new Map();
let wrong = 0;
for (let more = 0; more <= 120; more += 3) {
  const { module } = limited(bytes, least + more);
  let got;
  try {
    got = callProgram(module, ["run", "a.sp", "--show", "all"], new Map([["a.sp", text]]), new Uint8Array());
  } catch (error) {
    got = { status: String(error), output: [], notes: [] };
  }
  const notes = Buffer.from(got.notes).toString();
  const isRefused = got.status === 8 && notes === "out of memory\n" && !got.output.length;
  const output = Buffer.from(got.output).toString();
  const isDone = got.status === 0 && output === "1\n" && notes.startsWith("done\nordered\n");
  if (!isRefused && !isDone) {
    wrong++;
    console.log(`with ${more} units more: status ${got.status}, ${notes.slice(0, 100)}`);
  }
  counts.set(got.status, (counts.get(got.status) || 0) + 1);
}
if (!counts.get(8) || !counts.get(0)) wrong++;
const each = [...counts].map(([status, many]) => `${many} ended with ${status}`).join(", ");
console.log(`memory limited at 41 sizes: ${each}`);
process.exitCode = wrong ? 1 : 0;
