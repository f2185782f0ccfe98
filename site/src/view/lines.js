/** What the battle shows beside the lines of its sources: breakpoints, and the lines of a death that is explained. */
import { atCell } from "./breaks.js";
import { make } from "./dom.js";

/** @typedef {import("codemirror").Document} Document */
/** @typedef {import("./session.js").Session} Session */
/** @typedef {import("./shelf.js").Shelf} Shelf */
/** @typedef {import("./why.js").MarkedLine} MarkedLine */

export class Lines {
  /** @type {{doc: Document, line: unknown, className: string}[]} */
  #marked = [];
  /** @type {Document[]} */
  #docs = [];

  /**
   * @param {Session} session
   * @param {Shelf} shelf
   */
  constructor(session, shelf) {
    this.session = session;
    this.shelf = shelf;
    shelf.editor.mirror.on("gutterClick", (_, line) => this.#toggle(line + 1));
    session.listen((change) => {
      if (change === "look" || change === "battle") this.#showBreaks();
    });
  }

  /** @param {string} name of a source */
  #cellsOf(name) {
    const { opened, fight } = this.session;
    return (opened?.lines ?? []).filter(({ warrior }) => fight?.warriors[opened?.order[warrior] ?? 0].name === name);
  }

  /**
   * Sets a breakpoint at each cell that was loaded from a line, or removes the one that is there.
   * @param {number} line
   */
  #toggle(line) {
    const { session, shelf } = this;
    const name = shelf.shown?.name ?? "";
    const places = this.#cellsOf(name).filter((one) => one.line === line);
    for (const { address } of places) session.breaks.toggle(atCell(address));
    if (!places.length) shelf.say("No cell of this battle is from that line");
  }

  #showBreaks() {
    const { session, shelf } = this;
    for (const doc of this.#docs) doc.clearGutter("breaks");
    this.#docs = [];
    for (const { name } of session.fight?.warriors ?? []) {
      const doc = shelf.find(name)?.doc;
      if (!doc || this.#docs.includes(doc)) continue;
      this.#docs.push(doc);
      const at = this.#cellsOf(name).filter(({ address }) => session.breaks.has(atCell(address)));
      for (const { line } of at) {
        const mark = make("span", { className: "break", title: "Playing stops here; click to remove" });
        if (line <= doc.lineCount()) doc.setGutterMarker(line - 1, "breaks", mark);
      }
    }
  }

  /**
   * Marks these lines, and no others.
   * @param {MarkedLine[]} lines
   */
  mark(lines) {
    for (const { doc, line, className } of this.#marked.splice(0)) doc.removeLineClass(line, "wrap", className);
    for (const { name, line, className } of lines) {
      const doc = this.shelf.find(name)?.doc;
      if (!doc || line > doc.lineCount()) continue;
      this.#marked.push({ doc, line: doc.addLineClass(line - 1, "wrap", className), className });
    }
  }
}
