// Calls of the program for the commands: one at a time, with how long it is at work.
import { $, decode, encode } from "./elements.mjs";
import { failureWords } from "./sentences.mjs";
import { page, say } from "./state.mjs";

export const input = () => encode($("input").value);

export function setBusy(isBusy) {
  page.isBusy = isBusy;
  for (const it of document.querySelectorAll("[data-command]")) it.disabled = isBusy;
  $("stop").disabled = !isBusy;
  document.body.setAttribute("aria-busy", isBusy);
}

/** Calls the program on the text and more files. Gives its status, its output and its notes as texts, and its output as
 * bytes; null where the call came to nothing, which is said. */
export async function call(words, more = {}, stdin = new Uint8Array()) {
  await page.ready;
  if (!page.caller) return null;
  const start = performance.now();
  const seconds = () => Math.round((performance.now() - start) / 1000);
  say("", `${words[0]} is at work.`);
  const timer = setInterval(() => say("", `${words[0]} is at work: ${seconds()} s. Stop ends it.`), 1000);
  const result = await page.caller.call(words, { "text.sp": encode(page.editor.text), ...more }, stdin);
  clearInterval(timer);
  if (result.stopped) say("", "Stopped.");
  else if (result.failed) say("bad", failureWords(result.failed));
  if (result.stopped || result.failed) return null;
  const all = performance.now() - start;
  $("figures").textContent = `${words.join(" ")}: status ${result.status}, ${result.ms.toFixed(1)} ms in the program, `
    + `${all.toFixed(1)} ms in all, ${Math.round(result.memory / 1048576)} MiB of memory`;
  return { ...result, output: decode(result.output), notes: decode(result.notes), bytes: result.output };
}
