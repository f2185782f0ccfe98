/** Workers: one for the battle that is shown, and several for everything that is fought beside it. */
import { MarsError } from "../model/errors.js";

/** @typedef {import("./desk.js").Desk} Desk */
/** @typedef {import("./jobs.js").Jobs} Jobs */
/**
 * The calls of an object, each answered later.
 * @template T
 * @typedef {{[K in keyof T]: T[K] extends (...given: infer A) => infer R ? (...given: A) => Promise<R> : never}} Later
 */
/** @typedef {Omit<Jobs, "mars">} Work */
/**
 * The address of the script of a worker, and the compiled machine.
 * @typedef {{script: string, module: Promise<WebAssembly.Module>}} Parts
 */
/** @typedef {{done: (value: any) => void, failed: (error: unknown) => void}} Waiting */

/** The error of a job that was dropped. */
export class Stopped extends Error {}
/** The error of a call that takes too long, whose worker is then ended. */
class TimedOut extends Error {}
/** The error of opening a battle if the user cancels that. */
class Cancelled extends Error {}

/** A worker, and the calls that wait for its answers. */
class WorkerClient {
  /** @type {Map<number, Waiting>} */
  #waiting = new Map();
  #last = 0;
  /** @type {Error | null} */
  #fault = null;

  /** @param {Parts} parts */
  constructor({ script, module }) {
    this.worker = new Worker(script);
    this.worker.onmessage = ({ data }) => {
      const request = this.#waiting.get(data.id);
      this.#waiting.delete(data.id);
      if (!("error" in data)) request?.done(data.value);
      else if (typeof data.error === "string") request?.failed(new Error(data.error));
      else request?.failed(new MarsError(data.error.message, data.error));
    };
    this.worker.onerror = (event) => {
      // The calls that wait for the worker fail with the error, so the browser need not report it.
      event.preventDefault();
      this.#fail(new Error(event.message || "A worker does not start."));
    };
    /** @type {Promise<unknown>} */
    this.ready = module.then((compiled) => this.#send("start", [compiled]));
    this.ready.catch(() => {});
  }

  /**
   * @param {string} call
   * @param {unknown[]} given
   * @returns {Promise<any>}
   */
  #send(call, given) {
    return new Promise((done, failed) => {
      if (this.#fault) throw this.#fault;
      this.#waiting.set(++this.#last, { done, failed });
      this.worker.postMessage({ id: this.#last, call, given });
    });
  }

  /**
   * Makes a call, once the machine has started. Throws TimedOut after `timeout` milliseconds.
   * @param {string} call
   * @param {unknown[]} given
   * @param {number} timeout
   */
  async ask(call, given, timeout) {
    await this.ready;
    const answer = this.#send(call, given);
    // Nothing waits for an answer that is late, so its error is ignored.
    answer.catch(() => {});
    let timer;
    const late = new Promise((_, failed) => {
      timer = setTimeout(() => failed(new TimedOut("This takes too long and was stopped.")), timeout);
    });
    try {
      return await Promise.race([answer, late]);
    } finally {
      clearTimeout(timer);
    }
  }

  /**
   * Fails the calls that wait, and all later ones. A worker can fail before anything waits for it: its script may be
   * blocked.
   * @param {Error} error
   */
  #fail(error) {
    this.#fault ??= error;
    for (const { failed } of this.#waiting.values()) failed(error);
    this.#waiting.clear();
  }

  /**
   * Ends the worker.
   * @param {Error} why the error of the calls that wait
   */
  end(why = new Stopped("stopped")) {
    this.worker.terminate();
    this.#fail(why);
  }
}

/**
 * Milliseconds that a job, a source in the editor, and a battle that is opened may take: a few lines can take
 * minutes.
 */
const JOB_TIMEOUT = 60_000;
const LINT_TIMEOUT = 4_000;
const OPEN_TIMEOUT = 20_000;
/** The calls that open a battle or make a future of it. */
const OPENING = ["open", "edit"];

/**
 * The desk in a worker of its own. If a call takes too long, the worker is ended, and another one opens the last
 * battle, with its futures.
 */
class RemoteDesk {
  /**
   * The calls that opened the battle and made its futures.
   * @type {{call: string, given: unknown[]}[]}
   */
  #made = [];

  /** @param {Parts} parts */
  constructor(parts) {
    this.parts = parts;
    this.client = new WorkerClient(parts);
  }

  /**
   * Makes a call of the desk. If it takes too long, another worker takes over.
   * @param {string} call
   * @param {unknown[]} given
   * @returns {Promise<unknown>}
   */
  async ask(call, given) {
    const { client } = this;
    try {
      const answer = await client.ask(call, given, OPEN_TIMEOUT);
      if (call === "open") this.#made = [];
      if (OPENING.includes(call)) this.#made.push({ call, given });
      return answer;
    } catch (error) {
      // A call that was waiting when its worker was ended is made again, unless the user cancelled it.
      const isEnded = error instanceof Stopped || (error instanceof Cancelled && !OPENING.includes(call));
      if (isEnded && client !== this.client) return this.ask(call, given);
      if (error instanceof TimedOut && client === this.client) await this.#restart(new Stopped("stopped"));
      throw error;
    }
  }

  /** Stops opening a battle: the battle before stays. */
  cancel() {
    return this.#restart(new Cancelled("Cancelled."));
  }

  /**
   * Ends the worker, and starts another one with the battle and its futures.
   * @param {Error} why the error of the calls that wait
   */
  async #restart(why) {
    const { client } = this;
    this.client = new WorkerClient(this.parts);
    client.end(why);
    await Promise.all(this.#made.map((one) => this.client.ask(one.call, one.given, JOB_TIMEOUT)));
  }
}

/** @typedef {Later<Desk> & {cancel: () => Promise<void>}} Remote */

/**
 * Returns the calls of a desk in a worker, and `cancel`.
 * @param {Parts} parts
 * @returns {Remote}
 */
export function remoteDesk(parts) {
  const remote = new RemoteDesk(parts);
  const get = (/** @type {unknown} */ _, /** @type {string} */ call) =>
    call === "cancel" ? () => remote.cancel() : (/** @type {unknown[]} */ ...given) => remote.ask(call, given);
  return /** @type {any} */ (new Proxy({}, { get }));
}

/**
 * A job that waits for a worker. The most urgent one is taken next, the earliest one of equally urgent jobs.
 * @typedef {Waiting & {call: string, given: unknown[], urgency: number, group: string}} Job
 */

/** Workers that run jobs. */
export class Pool {
  /** @type {WorkerClient[]} */
  #idle = [];
  /** @type {Job[]} */
  #jobs = [];
  /** The number of workers that have been started and not ended. */
  #count = 0;
  /**
   * The number of jobs of each group that wait or run.
   * @type {Map<string, number>}
   */
  #counts = new Map();

  /**
   * @param {Parts} parts
   * @param {number} size
   */
  constructor(parts, size) {
    this.parts = parts;
    this.size = size;
  }

  /**
   * Runs a call of Jobs in the next idle worker, and returns its answer.
   * @template {keyof Work} K
   * @param {K} call
   * @param {Parameters<Work[K]>} given
   * @param {string} group what `drop` names; the group "lint" has a shorter timeout
   * @param {number} urgency the job of the highest urgency is taken first
   * @returns {Promise<ReturnType<Work[K]>>}
   */
  ask(call, given, group, urgency = 0) {
    const count = (/** @type {number} */ by) => this.#counts.set(group, (this.#counts.get(group) ?? 0) + by);
    count(1);
    const answer = new Promise((done, failed) => {
      let at = this.#jobs.length;
      while (at > 0 && this.#jobs[at - 1].urgency < urgency) at--;
      this.#jobs.splice(at, 0, { call, given, urgency, group, done, failed });
      this.#next();
    });
    return answer.finally(() => count(-1));
  }

  /**
   * Returns whether jobs of a group wait or run.
   * @param {string} group
   */
  has(group) {
    return (this.#counts.get(group) ?? 0) > 0;
  }

  /**
   * Forgets the jobs of a group that have not begun: they fail with Stopped.
   * @param {string} group
   */
  drop(group) {
    const dropped = this.#jobs.filter((job) => job.group === group);
    this.#jobs = this.#jobs.filter((job) => job.group !== group);
    for (const job of dropped) job.failed(new Stopped("stopped"));
  }

  #next() {
    while (this.#jobs.length && (this.#idle.length || this.#count < this.size)) {
      const job = /** @type {Job} */ (this.#jobs.shift());
      this.#work(this.#idle.pop() ?? this.#startWorker(), job);
    }
  }

  #startWorker() {
    this.#count++;
    return new WorkerClient(this.parts);
  }

  /**
   * Runs a job in a worker, which then is idle, or is ended if the job failed with another error than a MarsError.
   * @param {WorkerClient} client
   * @param {Job} job
   */
  async #work(client, job) {
    try {
      job.done(await client.ask(job.call, job.given, job.group === "lint" ? LINT_TIMEOUT : JOB_TIMEOUT));
      this.#idle.push(client);
    } catch (error) {
      job.failed(error);
      if (error instanceof MarsError) this.#idle.push(client);
      else {
        client.end();
        this.#count--;
      }
    }
    this.#next();
  }
}
