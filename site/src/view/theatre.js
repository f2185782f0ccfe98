/** The core, the strip of time and the controls: what moves. */
import { NOBODY, cellText, isEmpty, readCell } from "../model/cells.js";
import { captionWords, number, place, standingWords, writtenWords } from "../words/battle.js";
import { haltWords } from "../words/conditions.js";
import { instructionWords } from "../words/instruction.js";
import { linkWords } from "../words/why.js";
import { Core } from "./core.js";
import { READING, buttons, element, isNarrow, make, onClick, placeTip, refill, throttle, typed } from "./dom.js";
import { marksOf } from "./marks.js";
import { Palette } from "./palette.js";
import { standingNames, standingOn } from "./standing.js";
import { Track } from "./track.js";

/** @typedef {import("../battle/conditions.js").Word} Word */
/** @typedef {import("../worker/desk.js").View} View */
/** @typedef {import("./session.js").Session} Session */

const PLAY = "M4 2v12l10-6z";
const PAUSE = "M3 2h4v12H3zM9 2h4v12H9z";
const BACKWARDS = "M12 2v12L2 8z";
/** The speed at the right end of its slider, in turns a second; at the left end it is 1. */
const SLIDER_RATE = 200_000;
/** The maximum number of marks of breakpoints on the strip, and of turns of a battle that is searched for them. */
const MAX_HITS = 4000;
const MAX_SCANNED = 4_000_000;
/** The least height of the core on a narrow page, in pixels. */
const LEAST = 200;
/** Milliseconds after which the page offers to cancel the opening of a battle. */
const PATIENCE = 700;
const EMPTY = "Empty memory. A process that executes it ends.";
const EVENTS = { splits: "split", ends: "end of a process", dies: "death" };

export class Theatre {
  /** @type {Palette | null} */
  palette = null;
  /** @type {number | null} */
  hovered = null;
  #isAsked = false;
  /** The breakpoints whose hits are marked on the strip. */
  #hitsOf = "";
  /** @type {ReturnType<typeof setTimeout> | undefined} */
  #wait;
  #caption = "";
  #saidAt = 0;
  #follow = throttle(() => this.#drawNow(), READING);
  /** What is said below the core in place of the caption, until another turn is shown. */
  #notice = "";

  /** @param {Session} session */
  constructor(session) {
    this.session = session;
    this.core = new Core(typed("core", HTMLCanvasElement));
    this.other = new Core(typed("other-core", HTMLCanvasElement));
    const [strip, slider] = [typed("overview", HTMLCanvasElement), typed("time", HTMLInputElement)];
    this.track = new Track(strip, slider, session, () => this.ask());
    this.#listenToControls();
    this.#listenToTrack();
    this.#listenToCore();
    session.listen((change) => {
      if (change === "turn") this.#notice = "";
      const isThere = session.turn === session.wanted;
      if (session.halted && isThere) this.#notice = `Breakpoint: ${haltWords(session.halted, session.known)}.`;
      if (change === "battle") this.#open();
      if (change === "story") this.track.showPeaks(session.opened?.events ?? []);
      if (change === "look") this.#recolour();
      if (change === "look" || change === "battle") this.#findHits();
      if (change === "play") this.#showPlay();
      if (change === "wait") this.#showWait();
      else this.ask();
    });
    onClick("cancel", () => session.desk.cancel());
    new ResizeObserver(() => this.fit()).observe(element("stage"));
  }

  /** Offers to cancel what takes long to open. */
  #showWait() {
    element("waiting").hidden = true;
    clearTimeout(this.#wait);
    if (this.session.pending) this.#wait = setTimeout(() => (element("waiting").hidden = false), PATIENCE);
  }

  #listenToControls() {
    const { session } = this;
    onClick("first", () => session.jump(0));
    onClick("last", () => session.jump(session.end));
    onClick("back", () => session.step(-1));
    onClick("on", () => session.step(1));
    onClick("play", () => (session.way > 0 ? session.stop() : session.play(1)));
    onClick("rewind", () => (session.way < 0 ? session.stop() : session.play(-1)));
    onClick("again", () => session.play(1));
    const speed = typed("speed", HTMLInputElement);
    speed.oninput = () => session.setRate(SLIDER_RATE ** (Number(speed.value) / 100));
    for (const button of buttons("#leaps button")) {
      button.onclick = () => this.leap(/** @type {Word} */ (button.dataset.word), button.dataset.way === "on");
    }
  }

  /**
   * Goes to the next or the previous split, end of a process or death of any warrior.
   * @param {Word} word
   * @param {boolean} forward
   */
  async leap(word, forward) {
    const found = await this.session.leap([{ word }], forward);
    const death = word === "dies" ? this.session.opened?.deaths.find(({ turn }) => turn === found?.turn) : undefined;
    if (death && death.address >= 0) this.session.pin(death.address);
    if (found) return;
    const what = EVENTS[/** @type {keyof typeof EVENTS} */ (word)];
    this.#notice = `There is no ${what} ${forward ? "after" : "before"} turn ${number(this.session.turn)}.`;
    this.ask();
  }

  #listenToTrack() {
    const { session, track } = this;
    onClick("whole", () => track.show(0, session.end));
    track.slider.oninput = () => session.jump(Number(track.slider.value));
    const strip = element("track");
    const zoom = (/** @type {WheelEvent} */ event) => {
      event.preventDefault();
      track.zoom(1.003 ** event.deltaY, track.turnAt(event));
    };
    strip.addEventListener("wheel", zoom, { passive: false });
    strip.addEventListener("dblclick", (event) => track.zoom(0.2, track.turnAt(event)));
  }

  #listenToCore() {
    const { session } = this;
    for (const core of [this.core, this.other]) {
      core.canvas.addEventListener("pointermove", (event) => {
        // A finger covers what it touches; the cell that it selects is described below.
        this.#hover(event.pointerType === "touch" ? null : core.addressAt(event));
      });
      core.canvas.addEventListener("pointerleave", () => this.#hover(null));
      core.canvas.addEventListener("click", (event) => {
        const address = core.addressAt(event);
        session.pin(address === session.pinned ? null : address);
      });
    }
  }

  /** @param {number | null} address */
  #hover(address) {
    if (address === this.hovered) return;
    this.hovered = address;
    this.ask();
  }

  #open() {
    const { opened } = this.session;
    if (!opened) return;
    this.track.open(opened);
    this.hovered = null;
    // The element is as wide as its longest text, so that nothing beside it moves.
    const widest = `Turn ${number(opened.end)} of ${number(opened.end)}`;
    element("now").style.minWidth = `${0.6 * widest.length}em`;
    this.fit();
    this.#showPlay();
  }

  /** Fits the cores into the room that there is. */
  fit() {
    const { session } = this;
    const stage = element("stage");
    if (!session.opened || !stage.clientWidth) return;
    const isTwo = session.beside !== null;
    element("other").hidden = !isTwo;
    const width = isTwo && !isNarrow() ? stage.clientWidth / 2 : stage.clientWidth;
    // On a narrow page one core is below the other.
    const most = Math.min(isTwo ? innerHeight * 0.3 : this.#roomOfNarrow(), stage.clientWidth * 1.05);
    const height = isNarrow() ? most : stage.clientHeight - element("own-name").offsetHeight;
    for (const core of isTwo ? [this.core, this.other] : [this.core]) core.fit(session.opened.core, width, height);
    this.#recolour();
  }

  /** The height in pixels that remains on a narrow page if the strip and the controls are in sight, too. */
  #roomOfNarrow() {
    const battle = element("battle");
    const rest = battle.offsetHeight - element("stage").offsetHeight;
    const around = battle.getBoundingClientRect().top + scrollY + element("tabs").offsetHeight;
    return Math.max(LEAST, innerHeight - rest - around);
  }

  #recolour() {
    const { opened, chosen } = this.session;
    if (!opened) return;
    this.palette = new Palette(opened.order, chosen, this.core.shine);
    this.ask();
  }

  #showPlay() {
    const { way, rate } = this.session;
    for (const { id, isOn, path, name, key } of [
      { id: "play", isOn: way > 0, path: PLAY, name: "Play", key: "Space" },
      { id: "rewind", isOn: way < 0, path: BACKWARDS, name: "Play backwards", key: "J" },
    ]) {
      const button = element(id);
      button.setAttribute("aria-label", isOn ? "Pause" : name);
      button.title = isOn ? "Pause (Space)" : `${name} (${key})`;
      button.querySelector("path")?.setAttribute("d", isOn ? PAUSE : path);
      button.classList.toggle("on", isOn);
    }
    typed("speed", HTMLInputElement).value = String((100 * Math.log(rate)) / Math.log(SLIDER_RATE));
    element("speed").setAttribute("aria-valuetext", `${number(Math.round(rate))} turns per second`);
    element("rate").textContent = `${number(Number(rate.toPrecision(2)))} turns/s`;
  }

  /** Requests one drawing, however much changes until then. */
  ask() {
    if (this.#isAsked) return;
    this.#isAsked = true;
    requestAnimationFrame(() => {
      this.#isAsked = false;
      this.#draw();
    });
  }

  #draw() {
    const { session, palette, core } = this;
    const { view, opened, way, beside } = session;
    if (!view || !opened || !palette || view.owner.length !== core.size) return;
    if (element("other").hidden === (beside !== null)) this.fit();
    core.draw(view, palette, session.grain, marksOf(session, view, this.hovered));
    if (beside) this.#drawBeside(beside.future, beside.view, palette);
    if (!performance.getEntriesByName("first fight").length) performance.mark("first fight");
    this.#showEnding(view.turn === opened.end && way === 0);
    if (way) this.track.follow(view.turn);
    this.track.draw(palette, view.turn);
    if (way) this.#follow();
    else this.#drawNow();
    this.#drawCaption(view);
    this.#drawTip(view);
  }

  /**
   * @param {number} future
   * @param {View} view
   * @param {Palette} palette
   */
  #drawBeside(future, view, palette) {
    const { session } = this;
    if (view.owner.length !== this.other.size) return;
    const marks = { ...marksOf(session, view, this.hovered), head: view.head, reads: [], graves: [] };
    this.other.draw(view, palette, session.grain, marks);
    const isOver = view.turn < session.turn ? " (its end)" : "";
    element("other-name").textContent = `Future ${future} at turn ${number(view.turn)}${isOver}`;
    element("own-name").textContent = `Future ${session.future}; cells that differ are framed`;
  }

  /**
   * Shows what can be done at the end of the battle, and while a death is explained.
   * @param {boolean} isOver
   */
  #showEnding(isOver) {
    const { opened, known, chain } = this.session;
    element("ending").hidden = !isOver && !chain;
    element("caption").style.color = "";
    if (!opened) return;
    const dead = new Set(opened.deaths.map(({ warrior }) => warrior));
    element("why-now").hidden = dead.size === 0 || chain !== null;
    if (!isOver || chain || known.names.length - dead.size !== 1) return;
    const winner = known.names.findIndex((_, who) => !dead.has(who));
    element("caption").style.color = this.palette?.text[winner] ?? "";
  }

  /** Marks on the strip where playing stops. */
  async #findHits() {
    const { session, track } = this;
    const { future, opened, breaks: { all: breaks } } = session;
    const key = JSON.stringify([breaks, future]);
    if (key === this.#hitsOf && opened === track.opened) return;
    this.#hitsOf = key;
    const isShort = opened !== null && opened.end <= MAX_SCANNED;
    const hits = breaks.length && isShort ? await session.desk.hits(future, breaks, MAX_HITS).catch(() => []) : [];
    if (key !== this.#hitsOf || opened !== session.opened) return;
    track.showHits(hits);
    this.ask();
  }

  #drawNow() {
    const { known, end, view } = this.session;
    if (!view) return;
    const { turn, cycle } = view;
    this.track.moveSlider(turn);
    element("whole").hidden = this.track.isWhole;
    const rest = make("span", { className: "cycle" }, ` · cycle ${number(cycle)}`);
    refill(element("now"), make("b", {}, `Turn ${number(turn)}`), make("span", {}, ` of ${number(end)}`), rest);
    const lines = [`turn ${turn} of ${end}`, ...standingWords(known.names, view)];
    element("time").setAttribute("aria-valuetext", lines.join(". "));
  }

  /**
   * Says what is seen. While the battle plays, numbers change at most twice a second. Events are read out, numbers not.
   * @param {View} view
   */
  #drawCaption({ turn, processes, owned }) {
    const { opened, known, way, chain } = this.session;
    if (!opened) return;
    const link = chain?.links.find((one) => one.turn === turn);
    const happens = link && linkWords(link, known).replaceAll("`", "");
    const caption = this.#notice || happens || captionWords(turn, opened.events, known, { processes, cells: owned });
    const isNumber = caption.includes("%");
    const now = performance.now();
    if (caption === this.#caption || (way && isNumber && now - this.#saidAt < 500)) return;
    this.#saidAt = now;
    element("caption").setAttribute("aria-live", isNumber ? "off" : "polite");
    element("caption").textContent = this.#caption = caption;
  }

  /**
   * Describes the cell under the pointer.
   * @param {View} view
   */
  #drawTip(view) {
    const tip = element("tip");
    const address = this.hovered;
    tip.hidden = address === null;
    if (address === null) return;
    const { known } = this.session;
    const [cell, owner, when] = [readCell(view.cells, address), view.owner[address], view.written[address]];
    const isFree = owner === NOBODY && isEmpty(view.cells, address);
    const words = isFree ? EMPTY : instructionWords(cell, { core: known.core, address });
    const by = writtenWords(owner, when, known);
    const code = make("code", {}, cellText(cell, known.core));
    const head = make("p", {}, make("b", {}, place(address, known)), " ", code);
    const standing = standingOn(view, (one) => one === address).get(address);
    const processes = standing ? `. Processes: ${standingNames(standing, known.names)}` : "";
    refill(tip, head, make("p", {}, words), make("p", { className: "soft" }, by, processes));
    placeTip(tip, this.core.pointOf(address));
  }
}
