/** What helps to write a source: completion of its words, comments, a search, and what opcodes and modes mean. */
import { Pass } from "codemirror";
import WORDS from "../../../python/corewar/explain/words.json";
import { OPERATIONS, labelsOf, readSource } from "../words/source.js";
import { element, make, onClick, refill, typed, withCode } from "./dom.js";

/** @typedef {import("codemirror").Editor} Mirror */
/** @typedef {import("codemirror").Position} Position */
/** @typedef {{word: string, meaning: string}} Suggestion */

const MAX_SUGGESTIONS = 9;
const OPERATION = new RegExp(`(^|[^\\w&.])(${OPERATIONS.join("|")})(?![\\w&])`, "i");
/** @type {Record<string, string>} */
const ACTS = { ...WORDS.opcodes, ...WORDS.directives };

/**
 * Returns what a word can be completed to: modifiers after an opcode and a dot, names after an operation, otherwise
 * operations and EQU names.
 * @param {string} before the line up to the word
 * @param {string} word
 * @param {string} text the source
 * @returns {Suggestion[]}
 */
function suggestionsFor(before, word, text) {
  const source = readSource(text);
  const texts = [...source.equates].map(([name, line]) => [name, line.text.split(";")[0].trim().replace(/\s+/g, " ")]);
  const labels = [...labelsOf(source)].map(([name, line]) => [name, `line ${line.number}`]);
  const isOperand = OPERATION.test(before);
  const isModifier = /\w\.$/.test(before) && isOperand;
  const names = [...labels, ...texts, ...Object.entries(WORDS.predefined)];
  const words = isModifier ? Object.entries(WORDS.modifiers) : isOperand ? names : [...Object.entries(ACTS), ...texts];
  const isLow = /[a-z]/.test(isModifier ? before.slice(-2) : word.slice(-1));
  const all = words.filter(([name]) => name.toLowerCase().startsWith(word.toLowerCase()));
  // A word that is written in full needs no completion.
  const found = all.some(([name]) => name.length === word.length) ? [] : all;
  const cased = (/** @type {string} */ name) => (isLow && (isModifier || name in ACTS) ? name.toLowerCase() : name);
  return found.slice(0, MAX_SUGGESTIONS).map(([name, meaning]) => ({ word: cased(name), meaning }));
}

/** What the word before the caret can be completed to, as a list. Tab takes the selected line, at first the top one. */
export class Completion {
  /** @type {Suggestion[]} */
  #found = [];
  #at = 0;
  #hasMoved = false;
  /** @type {Position} */
  #from = { line: 0, ch: 0 };

  /** @param {Mirror} mirror */
  constructor(mirror) {
    this.mirror = mirror;
    this.list = element("completions");
    this.keys = {
      Up: () => this.#move(-1),
      Down: () => this.#move(1),
      Tab: () => this.#take(this.#at),
      Enter: () => (this.#hasMoved ? this.#take(this.#at) : this.close(Pass)),
      Esc: () => this.close(),
    };
    mirror.on("inputRead", () => this.open(false));
    mirror.on("cursorActivity", () => this.#followCaret());
    mirror.on("blur", () => this.close());
  }

  /**
   * Shows the list if there is something to complete.
   * @param {boolean} isWanted whether the user requests it by a key
   */
  open(isWanted) {
    const { line, ch } = this.mirror.getCursor();
    const before = this.mirror.getLine(line).slice(0, ch);
    const [word] = /(?:[A-Za-z_][\w&]*)?$/.exec(before) ?? [""];
    const start = before.slice(0, ch - word.length);
    const isLabel = start === "" && !isWanted;
    const isOpen = !before.includes(";") && !isLabel && (word !== "" || isWanted || /\w\.$/.test(start));
    this.#found = isOpen ? suggestionsFor(start, word, this.mirror.getValue()) : [];
    this.#from = { line, ch: ch - word.length };
    this.#at = 0;
    this.#hasMoved = isWanted;
    this.mirror.removeKeyMap(this.keys);
    if (!this.#found.length) return this.close();
    this.mirror.addKeyMap(this.keys);
    this.#draw();
  }

  #draw() {
    const lines = this.#found.map(({ word, meaning }, index) => {
      const here = { role: "option", "aria-selected": String(index === this.#at) };
      const line = make("li", here, make("b", {}, word), make("small", {}, withCode(meaning)));
      line.onmousedown = (event) => {
        event.preventDefault();
        this.#take(index);
      };
      return line;
    });
    refill(this.list, ...lines);
    this.list.hidden = false;
    const { left, top, bottom } = this.mirror.charCoords(this.#from, "window");
    const { offsetHeight: height, offsetWidth: width } = this.list;
    this.list.style.left = `${Math.min(left, innerWidth - width - 4)}px`;
    this.list.style.top = `${bottom + height > innerHeight ? top - height : bottom}px`;
  }

  /** @param {number} by */
  #move(by) {
    this.#hasMoved = true;
    this.#at = (this.#at + by + this.#found.length) % this.#found.length;
    this.#draw();
  }

  /** @param {number} index */
  #take(index) {
    const { word } = this.#found[index];
    const end = this.mirror.getCursor();
    this.close();
    this.mirror.replaceRange(word, this.#from, end);
  }

  #followCaret() {
    const { line, ch } = this.mirror.getCursor();
    if (line !== this.#from.line || ch < this.#from.ch) this.close();
  }

  /** @param {unknown} [result] */
  close(result) {
    this.list.hidden = true;
    this.mirror.removeKeyMap(this.keys);
    return result;
  }
}

/**
 * Makes the selected lines comments, or, if all of them are, makes them code again.
 * @param {Mirror} mirror
 */
export function toggleComment(mirror) {
  const rows = mirror.listSelections().flatMap(({ anchor, head }) => {
    const [first, last] = [anchor.line, head.line].sort((one, other) => one - other);
    return Array.from({ length: last - first + 1 }, (_, index) => first + index);
  });
  const isComment = rows.every((row) => /^\s*(;|$)/.test(mirror.getLine(row)));
  mirror.operation(() => {
    for (const row of new Set(rows)) {
      const text = mirror.getLine(row);
      const changed = isComment ? text.replace(";", "") : text.trim() ? `;${text}` : text;
      mirror.replaceRange(changed, { line: row, ch: 0 }, { line: row, ch: text.length });
    }
  });
}

/** The search in the source: Enter goes to the next place, with Shift to the one before, as the buttons do. */
export class Finder {
  /** @type {{clear(): void}[]} */
  #marks = [];
  /** @type {Position[]} */
  #places = [];

  /** @param {Mirror} mirror */
  constructor(mirror) {
    this.mirror = mirror;
    this.field = typed("find", HTMLInputElement);
    this.field.oninput = () => this.#find();
    onClick("find-back", () => this.#go(-1));
    onClick("find-on", () => this.#go(1));
    onClick("find-close", () => this.#close());
    this.field.onkeydown = (event) => {
      if (event.key === "Escape") this.#close();
      else if (event.key === "Enter") this.#go(event.shiftKey ? -1 : 1);
      else return;
      event.preventDefault();
    };
  }

  open() {
    element("finder").hidden = false;
    this.field.value = this.mirror.getSelection().split("\n")[0] || this.field.value;
    this.field.select();
    this.#find();
  }

  #find() {
    const wanted = this.field.value.toLowerCase();
    const lines = this.mirror.getValue().toLowerCase().split("\n");
    for (const mark of this.#marks.splice(0)) mark.clear();
    this.#places = !wanted ? [] : lines.flatMap((text, line) => placesIn(text, wanted).map((ch) => ({ line, ch })));
    for (const { line, ch } of this.#places) {
      this.#marks.push(this.mirror.markText({ line, ch }, { line, ch: ch + wanted.length }, { className: "found" }));
    }
    const { length } = this.#places;
    element("found").textContent = !wanted ? "" : length ? `${length} found` : "not found";
  }

  /** @param {1 | -1} by */
  #go(by) {
    this.#find();
    const { line, ch } = this.mirror.getCursor();
    const isAfter = (/** @type {Position} */ one) => one.line > line || (one.line === line && one.ch > ch);
    const next = this.#places.findIndex(isAfter);
    const count = this.#places.length;
    // The caret is at the end of the place that was found before.
    const at = by > 0 ? (next < 0 ? 0 : next) : ((next < 0 ? count : next) - 2 + count) % count;
    const place = this.#places[at];
    if (!place) return;
    this.mirror.setSelection(place, { ...place, ch: place.ch + this.field.value.length });
    this.mirror.scrollIntoView(place, 60);
    element("found").textContent = `${at + 1} of ${count}`;
  }

  #close() {
    for (const mark of this.#marks.splice(0)) mark.clear();
    element("finder").hidden = true;
    this.mirror.focus();
  }
}

/**
 * Returns the columns in a line at which a text begins.
 * @param {string} text
 * @param {string} wanted
 */
function placesIn(text, wanted) {
  const found = [];
  for (let at = text.indexOf(wanted); at >= 0; at = text.indexOf(wanted, at + wanted.length)) found.push(at);
  return found;
}

/** Opens a sheet that says beside the page what opcodes, modes and other words mean, or closes it if it is open. */
export function showSheet() {
  const sheet = typed("cheat", HTMLDialogElement);
  if (sheet.open) return sheet.close();
  const part = (/** @type {string} */ title, /** @type {Record<string, string>} */ words) => [
    make("h3", {}, title),
    make("dl", {}, ...Object.entries(words).flatMap(([word, meaning]) => [
      make("dt", {}, make("code", {}, word)),
      make("dd", {}, withCode(meaning)),
    ])),
  ];
  const { opcodes, modes, modifiers, directives } = WORDS;
  refill(
    element("cheat-words"),
    ...part("Opcodes", opcodes),
    ...part("Modes", modes),
    ...part("Modifiers", modifiers),
    ...part("Directives", directives),
  );
  sheet.show();
}
