/** The turns of a battle: which one is shown, and how they are played. */
import { Breaks } from "./breaks.js";
import { clamp } from "./dom.js";

/** @typedef {import("../battle/conditions.js").Condition} Condition */
/** @typedef {import("../worker/desk.js").View} View */
/**
 * What has changed: the battle, its story, the turn, how it plays, what is looked at, whether a battle is being opened.
 * @typedef {"battle" | "story" | "turn" | "play" | "look" | "wait"} Change
 */

/** Speeds, in turns a second. */
const SLOWEST = 1;
export const FASTEST = 2_000_000;

export class Turns {
  /** @type {import("../worker/desk.js").Opened | null} */
  opened = null;
  /** @type {View | null} */
  view = null;
  /**
   * What the turn that is shown did, once it is known.
   * @type {import("../words/battle.js").Move | null}
   */
  move = null;
  /**
   * The origin of each cell, an index of `opened.lines`, once it is known.
   * @type {Uint32Array | null}
   */
  origins = null;
  /**
   * The future that is wanted beside this one, or null.
   * @type {number | null}
   */
  compared = null;
  /**
   * The future that is shown beside this one, and its battle at the same turn.
   * @type {{future: number, view: View} | null}
   */
  beside = null;
  breaks = new Breaks(() => {
    if (this.way) this.#findLimit();
    this.notify("look");
  });
  /**
   * The breakpoint at which playing has stopped, until another turn is wanted.
   * @type {Condition | null}
   */
  halted = null;
  /**
   * A death that is explained, with the turns that led to it.
   * @type {{death: import("../battle/story.js").Event, links: import("../words/why.js").Link[]} | null}
   */
  chain = null;
  /** The turn that is wanted, which is shown as soon as the desk answers. */
  wanted = 0;
  /** Turns a second. */
  rate = 100;
  /** 1 forwards, -1 backwards, 0 stopped. */
  way = 0;
  /** The number of turns that were shown. */
  frames = 0;
  /** @type {((change: Change) => void)[]} */
  #listeners = [];
  /** The time of play in turns, with a fraction, and when it was computed. */
  #exact = 0;
  #lastTick = 0;
  /** The request for the next tick. */
  #frame = 0;
  /**
   * The turn at which playing stops, once it is known, and the breakpoint there, or null if none holds.
   * @type {{turn: number, at: Condition | null} | null}
   */
  #limit = null;
  /**
   * Resolves once the turn that is wanted is shown; null if it is shown already.
   * @type {Promise<void> | null}
   */
  #going = null;

  /**
   * @param {import("../worker/pool.js").Remote} desk
   * @param {(text: string) => void} complain shows an error
   */
  constructor(desk, complain) {
    this.desk = desk;
    this.complain = complain;
  }

  /** @param {(change: Change) => void} listener */
  listen(listener) {
    this.#listeners.push(listener);
  }

  /** @param {Change} change */
  notify(change) {
    for (const listener of this.#listeners) listener(change);
  }

  /** The future that is shown. */
  get future() {
    return this.opened?.future ?? 0;
  }

  get turn() {
    return this.view?.turn ?? 0;
  }

  get end() {
    return this.opened?.end ?? 0;
  }

  /** Whether the turn that is wanted is shown, with what it did. */
  get isSettled() {
    return this.#going === null && this.view?.turn === this.wanted;
  }

  /** How many turns a shade of the core lasts: about a second of play for all shades, at most 1/400 of the battle. */
  get grain() {
    // At slow rates a turn takes about three shades.
    return clamp(this.rate / 26, 0.34, Math.max(1, this.end / 400));
  }

  /**
   * Shows a turn. While the desk prepares one, the latest wish counts. Resolves when that is shown.
   * @param {number} turn
   */
  async go(turn) {
    if (!this.opened) return;
    this.wanted = clamp(Math.round(turn), 0, this.end);
    this.#going ??= this.#showWanted();
    await this.#going;
  }

  async #showWanted() {
    // What follows ends after this call has returned, even if there is nothing to show.
    await null;
    try {
      while (this.view?.turn !== this.wanted || this.#isIncomplete) await this.#show(this.wanted);
    } catch (error) {
      this.way = 0;
      this.notify("play");
      this.complain(String(/** @type {Error} */ (error).message));
    } finally {
      this.#going = null;
    }
  }

  get #isIncomplete() {
    const lacksOrigins = this.way === 0 && !this.origins;
    return lacksOrigins || this.compared !== (this.beside?.future ?? null);
  }

  /** @param {number} turn */
  async #show(turn) {
    const wanted = this.compared;
    const shown = await this.ofThisBattle(this.#ask(turn, wanted));
    if (!shown || wanted !== this.compared) return;
    Object.assign(this, shown);
    this.frames++;
    this.notify("turn");
  }

  /**
   * Returns what the desk answers, or null if another battle has been opened meanwhile, which may not have that turn.
   * @template T
   * @param {Promise<T>} answer
   * @returns {Promise<T | null>}
   */
  async ofThisBattle(answer) {
    const { opened } = this;
    try {
      const found = await answer;
      return opened === this.opened ? found : null;
    } catch (error) {
      if (opened === this.opened) throw error;
      return null;
    }
  }

  /**
   * Requests a turn, and the same turn of another future.
   * @param {number} turn
   * @param {number | null} other
   */
  async #ask(turn, other) {
    const { future } = this;
    const [view, beside] = await Promise.all([
      this.desk.turn(future, turn),
      other === null ? null : this.desk.turn(other, turn),
    ]);
    const shown = { view, beside: other === null ? null : { future: other, view: beside } };
    // What the turn did is needed only if the battle stops there.
    if (this.way !== 0) return { ...shown, move: null, origins: null };
    const [move, origins] = await Promise.all([
      turn > 0 ? this.desk.move(future, turn) : null,
      this.desk.origins(future, turn),
    ]);
    return { ...shown, move, origins };
  }

  /**
   * Steps by some turns and stops there.
   * @param {number} turns the number of turns forwards, or backwards if it is negative
   */
  step(turns) {
    this.jump(this.wanted + turns);
  }

  /**
   * Shows a turn and stops there.
   * @param {number} turn
   */
  jump(turn) {
    this.halted = null;
    this.stop();
    return this.go(turn);
  }

  /**
   * Plays forwards or backwards. If the battle is at that end already, it plays from the other end.
   * @param {1 | -1} way
   */
  play(way) {
    if (!this.opened) return;
    if (way > 0 && this.wanted >= this.end) this.wanted = 0;
    if (way < 0 && this.wanted <= 0) this.wanted = this.end;
    this.way = way;
    this.halted = this.chain = null;
    this.#exact = this.wanted;
    this.#lastTick = performance.now();
    this.notify("play");
    this.notify("look");
    this.#findLimit();
    this.#requestTick();
  }

  /** Finds where playing stops: at the next breakpoint, or at the end of the battle. */
  async #findLimit() {
    const { way, opened, breaks: { all: breaks } } = this;
    this.#limit = null;
    const end = { turn: way > 0 ? this.end : 0, at: null };
    const found = breaks.length ? await this.desk.search(this.future, breaks, this.wanted, way > 0) : null;
    // The user may have stopped the battle, or changed the breakpoints, meanwhile.
    const isLate = way !== this.way || opened !== this.opened || breaks !== this.breaks.all;
    if (!isLate) this.#limit = found ? { turn: found.turn, at: breaks[found.index] } : end;
  }

  /** Requests a tick, in place of one that is still to come. */
  #requestTick() {
    cancelAnimationFrame(this.#frame);
    this.#frame = requestAnimationFrame((now) => this.#tick(now));
  }

  stop() {
    if (this.way === 0) return;
    this.way = 0;
    this.notify("play");
    this.go(this.wanted);
  }

  /**
   * Advances the turn by the time since the last tick, and stops at the limit.
   * @param {number} now
   */
  #tick(now) {
    if (this.way === 0) return;
    const limit = this.#limit;
    const seconds = limit ? clamp(now - this.#lastTick, 0, 250) / 1000 : 0;
    const exact = this.#exact + this.way * seconds * this.rate;
    this.#exact = !limit ? exact : this.way > 0 ? Math.min(exact, limit.turn) : Math.max(exact, limit.turn);
    this.#lastTick = now;
    if (Math.floor(this.#exact) !== this.wanted) this.go(Math.floor(this.#exact));
    if (limit && this.#exact === limit.turn) {
      this.halted = limit.at;
      this.stop();
    } else this.#requestTick();
  }

  /** @param {number} rate turns a second */
  setRate(rate) {
    this.rate = clamp(rate, SLOWEST, FASTEST);
    this.notify("play");
  }
}
