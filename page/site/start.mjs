// The script that is not packed: it loads the others.
import { loadScript } from "./packing.mjs";

loadScript(document.getElementById("packed-site").textContent).catch((error) => {
  document.getElementById("verdict").textContent = `This browser cannot show the page: ${error}`;
});
