// Parts of the page that are packed by gzip and base64.

/** The bytes of a packed part. */
export async function unpack(text) {
  const bytes = Uint8Array.from(atob(text.trim()), (letter) => letter.charCodeAt(0));
  const stream = new Blob([bytes]).stream().pipeThrough(new DecompressionStream("gzip"));
  return new Response(stream).arrayBuffer();
}

/** Unpacks a script, and waits until it is loaded. */
export async function loadScript(text) {
  const bytes = await unpack(text);
  await new Promise((done, failed) => {
    const script = document.createElement("script");
    script.src = URL.createObjectURL(new Blob([bytes], { type: "text/javascript" }));
    script.onload = done;
    script.onerror = () => failed(new Error("a script could not be loaded"));
    document.head.append(script);
  });
}
