/** What the page is made of: its data, and the machine and the script of its workers, beside the page or inside it. */
import { remoteDesk } from "../worker/pool.js";
import { bytesOf, through } from "./link.js";

/** @typedef {import("../model/fight.js").Source} Source */
/** @typedef {import("../worker/pool.js").Parts} Parts */
/** @typedef {{examples: Source[], lessons: import("./lessons.js").Lesson[], meanings: Record<string, string>}} Data */

/** The HTML of the page as it was loaded, of which a page in one file makes its copies. */
const loaded = document.documentElement.outerHTML;
const FIGHT = /(<script id="page-fight" type="text\/plain">)[^<]*(<\/script>)/;

/** @param {string} id */
const textOf = (id) => document.getElementById(id)?.textContent?.trim() ?? "";

/** Returns the examples, the lessons and what errors mean. */
export function data() {
  return /** @type {Data} */ (JSON.parse(textOf("data")));
}

/** Returns the fight that is inside the page, or "". */
export const ownFight = () => textOf("page-fight");

async function compiled() {
  const machine = textOf("mars-code");
  if (machine) return WebAssembly.compile(await through(bytesOf(machine), new DecompressionStream("gzip")));
  const answer = await fetch("mars.wasm");
  if (!answer.ok) throw new Error(`mars.wasm: ${answer.status} ${answer.statusText}`);
  return WebAssembly.compile(await answer.arrayBuffer());
}

/**
 * Returns the parts at once: workers load their script while the machine is compiled.
 * @returns {Parts}
 */
function parts() {
  const worker = textOf("worker-code");
  const module = compiled();
  // An error is reported by the first call of a worker.
  module.catch(() => {});
  if (!worker) return { script: "worker.js", module };
  return { script: URL.createObjectURL(new Blob([worker], { type: "text/javascript" })), module };
}

/** The parts and the desk, which begin while the rest of the page's script is evaluated. */
export const begun = (async () => {
  const workerParts = parts();
  return { workerParts, desk: remoteDesk(workerParts) };
})();

/**
 * Returns the page in one file, with a fight in it.
 * @param {string} fight
 */
export async function pageWith(fight) {
  const isOne = textOf("mars-code") !== "";
  const answer = isOne ? null : await fetch("one.html");
  if (answer && !answer.ok) throw new Error(`one.html: ${answer.status} ${answer.statusText}`);
  const html = answer ? await answer.text() : `<!DOCTYPE html>\n${loaded}`;
  // While the script of the page runs, the page has not ended.
  const rest = html.includes("</html>") ? "" : "\n</body></html>\n";
  return html.replace(FIGHT, (_, start, end) => start + fight + end) + rest;
}
