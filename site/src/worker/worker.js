/** A worker: it has a machine of its own, and answers calls of a desk or of jobs by messages. */
import { Mars } from "../engine/mars.js";
import { MarsError } from "../model/errors.js";
import { Desk } from "./desk.js";
import { Jobs } from "./jobs.js";

/** @typedef {{id: number, call: string, given: unknown[]}} CallMessage */
/** @typedef {Record<string, (...given: unknown[]) => unknown>} Calls */

const DESK_CALLS = [
  ..."open show edit turn origins move overview story paint search count starts countIn hits".split(" "),
  ..."why copied until cell born cellOf memory".split(" "),
];
const JOB_CALLS = "assemble warriors match scores round sweep positions checkFormula".split(" ");

/**
 * What can be called, once the machine has started.
 * @type {Promise<Calls>}
 */
let calls = Promise.reject(new Error("the worker has not started"));
// Without a handler the browser would report the rejection.
calls.catch(() => {});

/**
 * Starts the machine, and returns what can be called.
 * @param {WebAssembly.Module} module
 * @returns {Promise<Calls>}
 */
async function start(module) {
  const mars = await Mars.load(module);
  const bound = (/** @type {any} */ object, /** @type {string[]} */ names) =>
    names.map((name) => [name, object[name].bind(object)]);
  return Object.fromEntries([
    ...bound(new Desk(mars), DESK_CALLS),
    ...bound(new Jobs(mars), JOB_CALLS),
    ["start", () => true],
  ]);
}

/**
 * Returns the buffers of an answer, which are transferred instead of copied.
 * @param {unknown} value
 * @returns {ArrayBuffer[]}
 */
function buffersOf(value) {
  const isWhole = ArrayBuffer.isView(value) && value.byteLength === value.buffer.byteLength;
  if (isWhole) return [/** @type {ArrayBuffer} */ (value.buffer)];
  if (!value || typeof value !== "object") return [];
  return Object.values(value).flatMap((part) => (ArrayBuffer.isView(part) ? buffersOf(part) : []));
}

self.onmessage = async ({ data }) => {
  const { id, call, given } = /** @type {CallMessage} */ (data);
  try {
    if (call === "start") calls = start(/** @type {WebAssembly.Module} */ (given[0]));
    const value = await (await calls)[call](...given);
    postMessage({ id, value }, { transfer: buffersOf(value) });
  } catch (error) {
    const { message } = /** @type {Error} */ (error);
    postMessage({ id, error: error instanceof MarsError ? { ...error, message } : String(message ?? error) });
  }
};
