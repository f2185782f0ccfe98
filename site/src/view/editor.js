/** The editor: Redcode in colours, errors at their words, each line in words under the pointer. */
import { CodeMirror, Doc, defineMode } from "codemirror";
import { cellText } from "../model/cells.js";
import { pluralize } from "../words/battle.js";
import { instructionWords } from "../words/instruction.js";
import { DIRECTIVES, OPCODES } from "../words/source.js";
import { Completion, Finder, toggleComment } from "./assist.js";
import { element, make, placeTip, refill } from "./dom.js";

/** @typedef {import("codemirror").Document} Document */
/** @typedef {import("../model/cells.js").Cell} Cell */
/** @typedef {import("../words/errors.js").Explained} Explained */
/** @typedef {Map<number, {died: number, killed: number}>} Hits by lines */
/** @typedef {{save: () => void, leave: () => void, changed: () => void}} Acts */

/**
 * The kinds of the words of a line, in the order in which they are tried.
 * @type {[RegExp, string | null][]}
 */
const TOKENS = [
  [/^;\s*(name|author|strategy|assert|redcode\S*|version|date)\b.*/i, "meta"],
  [/^;.*/, "comment"],
  [new RegExp(`^(${OPCODES.join("|")})\\b(\\.\\w+)?`, "i"), "keyword"],
  [new RegExp(`^(${DIRECTIVES.join("|")})\\b`, "i"), "builtin"],
  [/^\d+/, "number"],
  [/^[A-Za-z_][\w&]*/, "def"],
  [/^[#$@*<>{}]/, "operator"],
];

defineMode("redcode", () => ({
  token(stream) {
    if (stream.eatSpace()) return null;
    const found = TOKENS.find(([pattern]) => stream.match(pattern));
    if (!found) stream.next();
    return found ? found[1] : null;
  },
}));

/**
 * Returns a key map that calls `act` for a letter with Ctrl, and with Cmd, which Macs have in place of Ctrl.
 * @param {string} letter
 * @param {() => void} act
 */
const both = (letter, act) => ({ [`Ctrl-${letter}`]: act, [`Cmd-${letter}`]: act });

/** @param {string} text */
export const newDocument = (text) => new Doc(text, "redcode");

export class Editor {
  /** @type {{clear(): void}[]} */
  #marks = [];
  /** @type {{doc: Document, line: unknown} | null} */
  #moving = null;
  /**
   * The cells of each line.
   * @type {Map<number, Cell[]>}
   */
  #made = new Map();
  #core = 1;

  /** @param {Acts} acts */
  constructor({ save, leave, changed }) {
    this.mirror = CodeMirror(element("editor"), {
      mode: "redcode",
      lineNumbers: true,
      tabSize: 8,
      indentUnit: 8,
      gutters: ["breaks", "CodeMirror-linenumbers", "faults", "hits"],
      // The page takes files that are dropped.
      dragDrop: false,
      extraKeys: {
        ...{ "Ctrl-S": save, "Cmd-S": save, Tab: "insertSoftTab", "Shift-Tab": false, Esc: leave },
        // A line begins in the first column, where labels are; Tab leads to the opcode.
        Enter: () => this.mirror.replaceSelection("\n"),
        ...both("/", () => toggleComment(this.mirror)),
        ...both("F", () => finder.open()),
        "Ctrl-Space": () => completion.open(true),
      },
    });
    const completion = new Completion(this.mirror);
    const finder = new Finder(this.mirror);
    const field = this.mirror.getInputField();
    field.setAttribute("aria-label", "Source. Escape leaves the editor; Control-Enter starts a battle.");
    this.mirror.on("changes", () => {
      this.#hideTip();
      changed();
    });
    const wrapper = this.mirror.getWrapperElement();
    wrapper.addEventListener("mousemove", (event) => this.#hover(event));
    wrapper.addEventListener("mouseleave", () => this.#hideTip());
  }

  /** @param {Document} doc */
  show(doc) {
    this.mirror.swapDoc(doc);
  }

  /**
   * Shows a line. If `word` is given, the editor gets the focus there.
   * @param {number} line from 1
   * @param {number} [word] the column at which a word of the line begins, from 0
   */
  showLine(line, word) {
    this.mirror.refresh();
    this.mirror.scrollIntoView({ line: line - 1, ch: 0 }, 80);
    this.mirror.setCursor(line - 1, word ?? 0);
    if (word !== undefined) this.mirror.focus();
  }

  /**
   * Marks the line of the next instruction, and removes the previous mark. Marks nothing if the document is null or has
   * no such line.
   * @param {Document | null} doc
   * @param {number} line from 1, or 0 for none
   */
  markNext(doc, line) {
    if (this.#moving) this.#moving.doc.removeLineClass(this.#moving.line, "wrap", "moves");
    const isThere = doc && line > 0 && line <= doc.lineCount();
    this.#moving = isThere ? { doc, line: doc.addLineClass(line - 1, "wrap", "moves") } : null;
  }

  /**
   * Shows beside each line how often warriors died on it, and how often it killed others.
   * @param {Hits} hits
   */
  showHits(hits) {
    this.mirror.clearGutter("hits");
    element("editor").classList.toggle("hit-lines", hits.size > 0);
    this.mirror.refresh();
    for (const [line, { died, killed }] of hits) {
      if (line > this.mirror.lineCount()) continue;
      const title = [killed && pluralize(killed, "kill"), died && pluralize(died, "death")].filter(Boolean).join("; ");
      const parts = [
        killed ? make("span", { className: "killed" }, `+${killed}`) : null,
        died ? make("span", { className: "died" }, `−${died}`) : null,
      ];
      this.mirror.setGutterMarker(line - 1, "hits", make("span", { className: "hit", title }, ...parts));
    }
  }

  /**
   * Marks the errors of the document that is shown.
   * @param {Explained[]} errors
   */
  showErrors(errors) {
    for (const mark of this.#marks.splice(0)) mark.clear();
    this.mirror.clearGutter("faults");
    for (const { line, from, to, text } of errors) {
      if (line < 1 || line > this.mirror.lineCount()) continue;
      const [first, last] = [from, Math.max(to, from + 1)].map((ch) => ({ line: line - 1, ch }));
      this.#marks.push(this.mirror.markText(first, last, { className: "fault" }));
      this.mirror.setGutterMarker(line - 1, "faults", make("span", { className: "fault-mark", title: text }, "●"));
    }
  }

  /**
   * Takes the cells that each line of the document makes, by the number of the line.
   * @param {Map<number, Cell[]>} made
   * @param {number} core
   */
  explain(made, core) {
    this.#made = made;
    this.#core = core;
  }

  #hideTip() {
    element("line-tip").hidden = true;
  }

  /**
   * Says what the line under the pointer does.
   * @param {MouseEvent} event
   */
  #hover({ clientX, clientY }) {
    const { line, outside } = this.mirror.coordsChar({ left: clientX, top: clientY }, "window");
    const cells = this.#made.get(line + 1);
    if (!cells || outside) {
      this.#hideTip();
      return;
    }
    const tip = element("line-tip");
    tip.hidden = false;
    const more = cells.length > 1 ? ` and ${cells.length - 1} more` : "";
    const head = make("p", {}, make("code", {}, cellText(cells[0], this.#core)), more);
    refill(tip, head, make("p", {}, instructionWords(cells[0], { core: this.#core })));
    placeTip(tip, { x: clientX, y: clientY + tip.offsetHeight });
  }
}
