/** Shows why a warrior died: the chain of turns beside the core, arrows on the core, and marks at lines of source. */
import { cellText, readCell } from "../model/cells.js";
import { number, place } from "../words/battle.js";
import { linkWords } from "../words/why.js";
import { buttons, element, isNarrow, make, onClick, refill, withCode } from "./dom.js";
import { swatch } from "./palette.js";

/** @typedef {import("../words/why.js").Link} Link */
/** @typedef {{name: string, line: number, className: string}} MarkedLine */

export class Why {
  /**
   * @param {import("./session.js").Session} session
   * @param {import("./side.js").Side} side
   * @param {(lines: MarkedLine[]) => void} markLines
   */
  constructor(session, side, markLines) {
    this.session = session;
    this.side = side;
    this.markLines = markLines;
    onClick("why-now", () => this.ask());
    onClick("why-close", () => session.explain(null));
    session.listen((change) => {
      if (change === "look" || change === "battle") this.#draw();
      else if (change === "turn") this.#point();
    });
  }

  /**
   * Goes to the write that killed a warrior, and shows how it came to that.
   * @param {number} [warrior] the last one that died if it is not given
   */
  async ask(warrior = this.session.opened?.deaths.at(-1)?.warrior) {
    const { session } = this;
    const { opened, future } = session;
    const death = opened?.deaths.find((one) => one.warrior === warrior);
    if (!death) return;
    const links = await session.ofThisBattle(session.desk.why(future, death.warrior));
    if (!links) return;
    const [write] = ["write", "change"].flatMap((kind) => links.filter((link) => link.kind === kind).slice(-1));
    // On a narrow page the cell would cover the turns that led to it.
    session.pin(death.address < 0 || isNarrow() ? null : death.address);
    session.explain({ death, links });
    await session.jump((write ?? death).turn);
    scrollTo(0, 0);
  }

  #draw() {
    const { session } = this;
    const { chain, opened, known } = session;
    element("chain-box").hidden = !chain;
    if (!chain || !opened) {
      this.markLines([]);
      return;
    }
    const { death, links } = chain;
    element("chain-title").textContent = `Why ${known.names[death.warrior]} died`;
    const others = opened.deaths.filter(({ warrior }) => warrior !== death.warrior);
    const ask = (/** @type {number} */ who) => ({ className: "link", onclick: () => this.ask(who) });
    refill(element("chain"), ...links.map((link) => this.#line(link)));
    refill(element("chain-others"), ...others.map(({ warrior }) => make("button", ask(warrior), known.names[warrior])));
    element("chain-others").hidden = others.length === 0;
    const marked = links.flatMap((link) => {
      const found = session.lineOf(link.origin);
      const className = link.kind === "arrival" || link.kind === "death" ? "dies" : "kills";
      return found ? [{ name: found.name, line: found.line, className }] : [];
    });
    this.markLines(marked);
    this.#point();
  }

  /** @param {Link} link */
  #line(link) {
    const { session, side } = this;
    const { opened, known } = session;
    const show = () => {
      if (!isNarrow()) session.pin(link.kind === "aim" || link.kind === "arrival" ? link.address : link.target);
      session.jump(link.turn);
    };
    const found = session.lineOf(link.origin);
    const code = cellText(readCell(link.executed, 0), known.core);
    const by = `${place(link.address, known)}: ${found ? found.text : code}`;
    const source = make("code", { className: "source" }, by, " ", found && side.lineButton(found));
    const words = make("span", {}, withCode(linkWords(link, known)));
    const when = make("span", { className: "when" }, number(link.turn));
    const button = make("button", { className: "bare", onclick: show }, when, words);
    button.dataset.turn = String(link.turn);
    return make("li", { style: swatch(opened?.order[link.warrior] ?? 0) }, button, source);
  }

  /** Marks the link whose turn is shown. */
  #point() {
    for (const button of buttons("#chain button[data-turn]")) {
      const isHere = Number(button.dataset.turn) === this.session.turn;
      button.setAttribute("aria-current", isHere ? "step" : "false");
    }
  }
}
