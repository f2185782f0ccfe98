/** The debugger's line below the story, with its answers and the lines that were entered before. */
import { clamp, element, make, typed, withCode } from "./dom.js";
import { completions, execute, repeats } from "./commands.js";

/** @typedef {import("./session.js").Session} Session */

const MAX_LINES = 400;

export class Console {
  /** @type {string[]} */
  #past = [];
  #at = 0;
  #done = Promise.resolve();
  #field = typed("line", HTMLInputElement);
  /** The text whose completions were listed last. */
  #listed = "";

  /** @param {Session} session */
  constructor(session) {
    this.session = session;
    session.width = charactersOf;
    const field = this.#field;
    element("console").addEventListener("submit", (event) => {
      event.preventDefault();
      this.run(field.value);
      field.value = "";
    });
    field.addEventListener("paste", (event) => this.#runAll(event));
    field.addEventListener("keydown", (event) => {
      if (event.key === "Tab" && !event.shiftKey && this.#complete(field)) event.preventDefault();
      if (event.key !== "ArrowUp" && event.key !== "ArrowDown") return;
      event.preventDefault();
      this.#at = clamp(this.#at + (event.key === "ArrowUp" ? -1 : 1), 0, this.#past.length);
      field.value = this.#past[this.#at] ?? "";
    });
  }

  /**
   * Executes several lines that are pasted; a single one goes into the field.
   * @param {ClipboardEvent} event
   */
  #runAll(event) {
    const lines = (event.clipboardData?.getData("text") ?? "").split("\n").filter((line) => line.trim());
    if (lines.length < 2) return;
    event.preventDefault();
    for (const line of lines) this.run(line);
  }

  /**
   * Completes the word before the caret as far as it is certain, or else lists what it can be. Returns false if there
   * is nothing more to say: then Tab leaves the field.
   * @param {HTMLInputElement} field
   */
  #complete(field) {
    const end = field.selectionStart ?? 0;
    const before = field.value.slice(0, end);
    const found = before.trim() && before !== this.#listed ? completions(this.session, before) : [];
    if (!found.length) return false;
    const word = before.split(/\s/).at(-1) ?? "";
    const certain = found.length === 1 ? `${found[0]} ` : sharedStart(found);
    if (certain.length > word.length) field.setRangeText(certain, end - word.length, end, "end");
    else {
      this.#listed = before;
      this.#print([found.join("  ")], "asked");
    }
    return true;
  }

  /**
   * Executes a line after those before it.
   * @param {string} line an empty line repeats the last one if that moves or lists
   */
  run(line) {
    this.#done = this.#done.then(() => this.#execute(line));
    return this.#done;
  }

  /** @param {string} line */
  async #execute(line) {
    const last = this.#past.at(-1) ?? "";
    const given = line.trim() || (repeats(last) ? last : "");
    if (!given) return;
    if (given !== this.#past.at(-1)) this.#past.push(given);
    this.#at = this.#past.length;
    this.#print([`turn ${this.session.turn}> ${given}`], "asked");
    const { placeholder } = this.#field;
    const tell = (/** @type {string} */ progress) => {
      this.#field.placeholder = progress;
    };
    try {
      this.#print(await execute(this.session, given, tell), "");
    } catch (error) {
      this.#print([String(/** @type {Error} */ (error).message)], "refused");
    }
    this.#field.placeholder = placeholder;
  }

  /**
   * Appends lines to the answers.
   * @param {string[]} texts
   * @param {string} className "asked" for a command, "refused" for an error, or ""
   */
  #print(texts, className) {
    const answers = element("answers");
    // Old lines are removed only before a command, since a reply may have more than the maximum.
    while (className === "asked" && answers.children.length > MAX_LINES) answers.firstChild?.remove();
    answers.append(...texts.map((text) => make("li", { className }, withCode(text))));
    answers.scrollTop = answers.scrollHeight;
    if (document.activeElement === this.#field) this.#field.scrollIntoView({ block: "nearest" });
  }
}

/** Returns how many characters fit in a line of the answers, or 0 if the answers are hidden. */
function charactersOf() {
  const probe = make("span", {}, "0".repeat(10));
  const line = make("li", {}, probe);
  element("answers").append(line);
  const found = Math.floor((10 * line.clientWidth) / probe.offsetWidth) || 0;
  line.remove();
  return found;
}

/**
 * Returns the beginning that some words share, whatever the case of their letters.
 * @param {string[]} words
 */
function sharedStart([first, ...others]) {
  let length = first.length;
  const isShared = (/** @type {string} */ word) => word.toLowerCase().startsWith(first.slice(0, length).toLowerCase());
  while (!others.every(isShared)) length--;
  return first.slice(0, length);
}
