/**
 * The user's folder, if a server on this machine offers one. The server reads and saves sources there and runs leagues.
 */
import { resultOf } from "../view/league.js";

/** @typedef {import("../model/fight.js").Source} Source */
/** @typedef {import("../view/league.js").Result} Result */
/** @typedef {import("../view/host.js").MatchTerms} MatchTerms */
/**
 * `seen` names the content that was read.
 * @typedef {{name: string, text: string, seen: string, isExample: boolean}} KeptFile
 */
/** @typedef {{name: string, fault: string}} LeftOut a file that was not read, and why */

const META = document.querySelector("meta[name=corewar-server]");
/** The name of the folder in the keys under which the browser stores things for it, or "" if there is no server. */
export const folderKey = META?.getAttribute("data-key") ?? "";
/** Whether a server on this machine serves the page, whose address then contains a secret. */
export const isServed = META !== null;

export class Server {
  /** @type {Map<string, string>} */
  #seen = new Map();

  /**
   * @param {string} path
   * @param {(KeptFile | LeftOut)[]} all
   */
  constructor(path, all) {
    const sources = all.flatMap((one) => ("fault" in one ? [] : one));
    this.path = path;
    this.sources = sources;
    this.faults = all.flatMap((one) => ("fault" in one ? `${one.fault}.` : []));
    for (const { name, seen, isExample } of sources) if (!isExample) this.#seen.set(name, seen);
  }

  /** Returns the server of this page, or null if no server on this machine serves the page. */
  static async find() {
    const path = META?.getAttribute("content");
    if (!path) return null;
    const answer = await fetch(`${path}/sources`);
    if (!answer.ok) throw new Error(`the folder cannot be read: ${(await answer.json()).fault ?? answer.status}`);
    return new Server(path, await answer.json());
  }

  /**
   * Saves a source. Returns null, or why the source was not saved; `isOther`: whether something else changed the file.
   * @param {string} name
   * @param {string} text
   * @param {boolean} isForced whether a file that something else changed is overwritten
   */
  async save(name, text, isForced) {
    const path = `${this.path}/sources/${encodeURIComponent(name)}`;
    const put = (/** @type {string} */ seen) => fetch(path, { method: "PUT", body: JSON.stringify({ text, seen }) });
    try {
      let answer = await put(this.#seen.get(name) ?? "");
      if (answer.status === 409 && isForced) answer = await put((await answer.json()).seen);
      const { fault, seen } = await answer.json();
      if (answer.ok) this.#seen.set(name, seen);
      return answer.ok ? null : { text: fault, isOther: answer.status === 409 };
    } catch {
      return { text: "The server does not respond; restart `corewar web`", isOther: false };
    }
  }

  /**
   * Returns the text of a source as it is now, or null if it is gone.
   * @param {string} name
   */
  async load(name) {
    const answer = await fetch(`${this.path}/sources`);
    const all = /** @type {KeptFile[]} */ (await answer.json());
    const found = all.find((one) => one.name === name && one.text !== undefined);
    if (found) this.#seen.set(name, found.seen);
    return found?.text ?? null;
  }

  /**
   * Returns the files that are new or have changed since they were read, or none if the server does not answer. A file
   * that is gone has "" as its `seen`.
   * @returns {Promise<KeptFile[]>}
   */
  async changed() {
    const answer = await fetch(`${this.path}/sources`).catch(() => null);
    if (!answer?.ok) return [];
    const all = /** @type {(KeptFile | LeftOut)[]} */ (await answer.json());
    const files = all.flatMap((one) => ("fault" in one || one.isExample ? [] : one));
    const gone = [...this.#seen.keys()].filter((name) => !all.some((one) => one.name === name));
    const lost = gone.map((name) => ({ name, text: "", seen: "", isExample: false }));
    return [...files.filter(({ name, seen }) => this.#seen.get(name) !== seen), ...lost];
  }

  /**
   * Notes that the page has this content of a file.
   * @param {KeptFile} file
   */
  take({ name, seen }) {
    if (seen) this.#seen.set(name, seen);
    else this.#seen.delete(name);
  }

  /**
   * Yields the results of a league in lists. The server runs the matches whose results it has not stored.
   * @param {Source[]} sources
   * @param {MatchTerms} terms
   * @returns {AsyncGenerator<Result[]>}
   */
  async *league(sources, terms) {
    const answer = await fetch(`${this.path}/league`, { method: "POST", body: JSON.stringify({ sources, ...terms }) });
    if (!answer.ok || !answer.body) throw new Error((await answer.json()).fault);
    const reader = answer.body.pipeThrough(new TextDecoderStream()).getReader();
    let rest = "";
    try {
      for (let part = await reader.read(); !part.done; part = await reader.read()) {
        const lines = (rest + part.value).split("\n");
        rest = lines.pop() ?? "";
        for (const line of lines) {
          const message = JSON.parse(line);
          if ("fault" in message) throw new Error(message.fault);
          yield message.map(resultOf);
        }
      }
    } finally {
      // If no more results are wanted, the server ends the league.
      await reader.cancel();
    }
  }
}
