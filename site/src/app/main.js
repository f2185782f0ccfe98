/** Begins the page: makes its parts and shows what its address names, or says why the page cannot start. */
import { begun, data, pageWith } from "./parts.js";
import { element, make, refill } from "../view/dom.js";
import { Page } from "./page.js";
import { Server } from "./server.js";
import { shared } from "./share.js";
import { startAfresh, stored } from "./store.js";

async function main() {
  if (stored.theme) document.documentElement.dataset.theme = stored.theme;
  const { workerParts, desk } = await begun;
  const server = await Server.find();
  try {
    // The desk starts while the page is made.
    await workerParts.module;
    const page = new Page(workerParts, desk, server, data());
    page.listen();
    await page.arrival.begin();
    // For tests, and for the curious.
    Object.assign(window, { corewar: page, pageWith, shared });
  } catch (error) {
    if (!sayWhy(/** @type {Error} */ (error))) return;
    const afresh = { className: "link", onclick: startAfresh };
    element("loading").append(make("button", afresh, "Delete what is stored and start afresh"));
  }
}

/**
 * Says why the page does not start. Returns whether what is stored may be the cause.
 * @param {Error} error
 */
function sayWhy({ message }) {
  const lacksFeatures = ["WebAssembly", "DecompressionStream"].some((name) => !(name in window));
  const isOld = lacksFeatures || /wasm|compile|memory/i.test(message);
  const what = isOld ? "This browser cannot run the simulator, a WebAssembly module" : "The page cannot start";
  refill(element("loading"), `${what}: ${message} `);
  return !isOld;
}

main().catch(sayWhy);
