/** Beside the core: who fights, the story of the battle, the turn that is shown, and the futures. */
import { cellText, readCell } from "../model/cells.js";
import { editText } from "../model/fight.js";
import { eventWords, fateWords, joinNames, moveWords, number, outcome, place, pluralize } from "../words/battle.js";
import { instructionWords } from "../words/instruction.js";
import { READING, element, make, onClick, refill, throttle } from "./dom.js";
import { swatch } from "./palette.js";

/** @typedef {import("../battle/story.js").Event} Event */
/** @typedef {import("../worker/desk.js").View} View */
/** @typedef {import("./session.js").Session} Session */
/** @typedef {(name: string, line: number) => void} ShowLine shows a line of a source */
/**
 * The row of a warrior.
 * @typedef {{row: HTMLElement, processes: HTMLElement, cells: HTMLElement, bar: HTMLElement,
 *   fate: HTMLElement}} WarriorRow
 */

/** With more warriors than that, rows are small. */
const MAX_LARGE_ROWS = 4;
/** The least height of the list of events, in which a short story has room. */
const STORY = "9em";
const PAUSE = "Pause, or step with the arrow keys, to read each turn in words.";

export class Side {
  /** @type {WarriorRow[]} */
  #rows = [];

  /**
   * @param {Session} session
   * @param {ShowLine} show
   */
  constructor(session, show) {
    this.session = session;
    this.show = show;
    onClick("undo", () => session.undo());
    onClick("redo", () => session.redo());
    onClick("alone", () => session.compare(null));
    const follow = throttle(() => this.#draw(), READING);
    session.listen((change) => {
      if (change === "turn" && session.way) {
        follow();
        return;
      }
      if (change === "battle") this.#open();
      if (change === "story") this.#tell(STORY);
      this.#draw();
    });
  }

  #open() {
    const { opened, known } = this.session;
    if (!opened) return;
    const { names } = known;
    const title = names.length === 2 ? names.join(" against ") : joinNames(names);
    document.title = `${title} · Core War`;
    element("title").textContent = title;
    this.#rows = names.map((_, who) => this.#row(who));
    element("legend").className = names.length > MAX_LARGE_ROWS ? "many" : "";
    refill(element("legend"), ...this.#rows.map(({ row }) => row));
    // Until the story has been read, what is below it stays in its place.
    this.#tell(`max(${STORY}, ${element("story").offsetHeight}px)`);
    this.#openFutures();
  }

  /**
   * Shows what is known of the story.
   * @param {string} height the least height of its list
   */
  #tell(height) {
    const events = this.session.opened?.events ?? [];
    element("story").style.minHeight = height;
    refill(element("story"), ...events.map((event) => this.#event(event)));
  }

  /**
   * @param {number} who
   * @returns {WarriorRow}
   */
  #row(who) {
    const { session } = this;
    const [processes, cells, fate] = [make("td"), make("td"), make("small")];
    const bar = make("i", { className: "bar" });
    const name = make("span", {}, make("strong", {}, session.known.names[who]), fate);
    const choose = { className: "bare name", title: "Show only this warrior", onclick: () => session.choose(who) };
    const button = make("button", choose, make("i", { className: "chip" }), name);
    const style = swatch(session.opened?.order[who] ?? 0);
    return { row: make("tr", { style }, make("td", {}, button, bar), processes, cells), processes, cells, bar, fate };
  }

  /** @param {Event} event */
  #event(event) {
    const { session } = this;
    const show = () => {
      session.jump(event.turn);
      if (["death", "hit", "edit"].includes(event.kind) && event.address >= 0) session.pin(event.address);
    };
    const words = make("span", {}, eventWords(event, session.known));
    const when = make("span", { className: "when" }, number(event.turn));
    const line = make("li", {}, make("button", { className: "bare", onclick: show }, when, words));
    line.dataset.turn = String(event.turn);
    return line;
  }

  #openFutures() {
    const { session } = this;
    const { futures, future, known } = session;
    element("futures-box").hidden = futures.length < 2;
    element("undo").toggleAttribute("disabled", session.before < 0);
    element("redo").toggleAttribute("disabled", session.after < 0);
    const lines = futures.map(({ edits, end }, index) => {
      const edited = edits.map(({ turn, edit }) => `turn ${number(turn)}: ${editText(edit, known.core)}`);
      const text = `${index}: ${edited.join("; ") || "no edits"} (${pluralize(end, "turn")})`;
      const current = index === future ? "true" : null;
      const here = { className: "bare", "aria-current": current, onclick: () => session.showFuture(index) };
      const compare = { className: "link", title: "Show both side by side", onclick: () => session.compare(index) };
      return make("li", {}, make("button", here, text), index === future ? null : make("button", compare, "Compare"));
    });
    refill(element("futures"), ...lines);
  }

  #draw() {
    const { view, opened, known } = this.session;
    if (!view || !opened) return;
    this.#rows.forEach((row, who) => this.#drawRow(row, who, view));
    for (const line of element("story").children) {
      if (line instanceof HTMLElement) line.classList.toggle("past", Number(line.dataset.turn) <= view.turn);
    }
    const isOver = view.turn === opened.end;
    element("outcome").textContent = isOver ? `${outcome(known)} after ${pluralize(opened.end, "turn")}.` : "";
    element("alone").hidden = this.session.beside === null;
    this.#drawTurn(view);
  }

  /**
   * @param {WarriorRow} row
   * @param {number} who
   * @param {View} view
   */
  #drawRow({ row, processes, cells, bar, fate }, who, view) {
    const { opened, known, chosen } = this.session;
    if (!opened) return;
    row.className = `${view.processes[who] ? "" : "dead"} ${chosen < 0 || chosen === who ? "" : "dim"}`;
    row.querySelector("button")?.setAttribute("aria-pressed", String(chosen === who));
    processes.textContent = number(view.processes[who]);
    cells.textContent = number(view.owned[who]);
    bar.style.setProperty("--share", `${(100 * view.owned[who]) / known.core}%`);
    const death = opened.deaths.find(({ warrior }) => warrior === who);
    if (death && death.turn <= view.turn) fate.textContent = `died in turn ${number(death.turn)}`;
    else if (view.turn === opened.end) fate.textContent = fateWords(known);
    else fate.textContent = opened.authors[who] ? `by ${opened.authors[who]}` : "";
  }

  /** @param {View} view */
  #drawTurn(view) {
    const { known, way, move } = this.session;
    element("turn-words").className = way ? "soft" : "";
    if (way) element("turn-words").textContent = PAUSE;
    else if (view.turn === 0) element("turn-words").textContent = "The start: no turn has been executed yet.";
    else if (move) element("turn-words").textContent = moveWords(move, known);
    if (way || view.head === null) {
      refill(element("following"));
      return;
    }
    const cell = readCell(view.cells, view.head);
    const sentence = make("span", { className: "soft" }, instructionWords(cell, { core: known.core }));
    const code = make("code", {}, cellText(cell, known.core));
    const who = `${known.names[view.next]} at ${place(view.head, known)}: `;
    refill(element("following"), make("b", {}, "Next: "), who, code, ". ", sentence, " ", this.lineLink(view.head));
  }

  /**
   * Returns the line of source of the instruction at an address, or null if it is not known.
   * @param {number} address
   */
  lineOf(address) {
    const { session } = this;
    return session.origins && session.lineOf(session.origins[address]);
  }

  /**
   * Returns a link to the line of source of the instruction at an address, or null.
   * @param {number} address
   */
  lineLink(address) {
    const found = this.lineOf(address);
    return found && this.lineButton(found);
  }

  /** @param {{name: string, line: number, text: string}} line */
  lineButton({ name, line, text }) {
    const show = { className: "link", title: text, onclick: () => this.show(name, line) };
    return make("button", show, `${name}, line ${line}`);
  }
}
