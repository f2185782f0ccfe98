/** The battle that is shown: its turns, its futures, and the cell that is kept in view. */
import { addressesOf, distinct } from "../words/battle.js";
import { clamp, debounce } from "./dom.js";
import { FASTEST, Turns } from "./turns.js";

/** @typedef {import("../model/fight.js").Edit} Edit */
/** @typedef {import("../model/fight.js").Fight} Fight */
/** @typedef {import("../worker/desk.js").Opened} Opened */

/** About how long a battle plays, in seconds. */
const LENGTH = 24;

export class Session extends Turns {
  /** @type {Fight | null} */
  fight = null;
  /**
   * The fight that is wanted, which is shown as soon as it is opened.
   * @type {Fight | null}
   */
  latest = null;
  /** @type {import("../words/battle.js").Known} */
  known = { names: [], core: 1, end: 0, deaths: [], addresses: new Map(), labels: new Map() };
  /** Returns how many characters fit in a line of the debugger's replies, or 0 if there is no limit. */
  width = () => 0;
  /**
   * What the errors of sources mean.
   * @type {Record<string, string>}
   */
  meanings = {};
  /** @type {number | null} */
  pinned = null;
  /** The only warrior that is shown in full colour, or -1 if all are. */
  chosen = -1;
  /** The number of battles and futures that are being opened, which `desk.cancel` stops. */
  pending = 0;
  /** @type {Promise<unknown>} */
  #done = Promise.resolve();
  /** Reads the story, after a delay in which the first turn is shown. */
  #tell = debounce(() => this.#readStory().catch(() => {}), 90);

  /**
   * Calls a function once the functions before it have ended, each of which may lead to another battle, future or turn.
   * @template T
   * @param {() => Promise<T>} act
   * @returns {Promise<T>}
   */
  #inOrder(act) {
    const done = this.#done.then(act);
    // After one that fails, the next ones are called all the same.
    this.#done = done.catch(() => {});
    return done;
  }

  /**
   * Fights, and shows the battle from a turn. Of several fights that are wanted meanwhile, the latest is opened. Throws
   * what the desk throws; then the battle before stays.
   * @param {Fight} fight
   * @param {{turn?: number, pinned?: number | null, plays?: boolean}} shown
   */
  async open(fight, { turn = 0, pinned = null, plays = true } = {}) {
    this.stop();
    this.latest = fight;
    await this.#inOrder(async () => {
      if (this.latest !== fight) return;
      try {
        this.#takeFight(fight, await this.#opened(this.desk.open(fight)), pinned);
      } catch (error) {
        if (this.latest === fight) this.latest = this.fight;
        throw error;
      }
    });
    if (this.fight !== fight) return;
    await this.go(turn);
    if (plays && this.latest === fight) this.play(1);
  }

  /**
   * Returns a battle or a future when it is opened, and counts it in `pending` until then.
   * @param {Promise<Opened>} made
   */
  async #opened(made) {
    this.pending++;
    this.notify("wait");
    try {
      return await made;
    } finally {
      this.pending--;
      this.notify("wait");
    }
  }

  /**
   * @param {Fight} fight
   * @param {Opened} opened
   * @param {number | null} pinned
   */
  #takeFight(fight, opened, pinned) {
    this.stop();
    this.compared = null;
    this.rate = clamp(opened.end / LENGTH, 2, FASTEST);
    this.pinned = pinned;
    this.chosen = -1;
    this.fight = fight;
    this.#setBattle(opened);
  }

  /**
   * Takes other names for the sources of the battle.
   * @param {import("../model/fight.js").Source[]} warriors
   */
  rename(warriors) {
    if (!this.fight) return;
    const renamed = { ...this.fight, warriors };
    // `open` knows a fight by its identity.
    if (this.latest === this.fight) this.latest = renamed;
    this.fight = renamed;
  }

  /** @param {Opened} opened */
  #setBattle(opened) {
    const { names, core, end, deaths, labels } = opened;
    this.opened = opened;
    if (this.compared === opened.future) this.compared = null;
    if (this.compared === null) this.beside = null;
    this.view = this.move = this.origins = this.chain = this.halted = null;
    this.wanted = clamp(this.wanted, 0, end);
    const addresses = addressesOf(labels);
    // The last entry of a Map counts, but of several labels of a cell the first one is shown.
    const named = new Map([...addresses].reverse().map(([name, address]) => [address, name]));
    this.known = { names: distinct(names), core, end, deaths, addresses, labels: named };
    this.notify("battle");
    this.#tell();
  }

  /**
   * Returns the line of source of a loaded cell, the name of its source and its warrior, or null.
   * @param {number} origin
   */
  lineOf(origin) {
    const { opened, fight } = this;
    const found = opened?.lines[origin];
    if (!opened || !fight || !found) return null;
    const { name, text } = fight.warriors[opened.order[found.warrior]];
    const code = text.split("\n")[found.line - 1]?.split(";")[0].trim().replace(/\s+/g, " ") ?? "";
    return { warrior: found.warrior, name, line: found.line, text: code };
  }

  /** Reads the story of the battle part by part, so that turns that are wanted meanwhile come between the parts. */
  async #readStory() {
    const { opened } = this;
    for (let events = null; opened && opened === this.opened && !events; ) {
      events = await this.ofThisBattle(this.desk.story(opened.future));
      if (!events) continue;
      opened.events = events;
      this.notify("story");
    }
  }

  /**
   * Shows why a warrior died, or stops showing it if `chain` is null.
   * @param {Turns["chain"]} chain
   */
  explain(chain) {
    this.chain = chain;
    this.notify("look");
  }

  /** @param {number | null} address */
  pin(address) {
    this.pinned = address;
    this.notify("look");
  }

  /**
   * Shows only one warrior in full colour, or all of them if that warrior was the only one before.
   * @param {number} who
   */
  choose(who) {
    this.chosen = this.chosen === who ? -1 : who;
    this.notify("look");
  }

  /**
   * Goes to the nearest place, after or before this one, where one of the conditions holds. Returns the place, or null
   * if there is none.
   * @param {import("../battle/conditions.js").Condition[]} conditions
   * @param {boolean} forward
   */
  async leap(conditions, forward) {
    this.halted = null;
    this.stop();
    const found = await this.#inOrder(async () => {
      if (!this.opened) return null;
      const place = await this.desk.search(this.future, conditions, this.wanted, forward);
      this.wanted = place?.turn ?? this.wanted;
      return place;
    });
    await this.go(this.wanted);
    return found;
  }

  /**
   * Edits the battle at the turn that is shown, and shows the future that this makes. Throws the error of the machine,
   * or that of a promised edit.
   * @param {Edit | Promise<Edit>} edit
   */
  async edit(edit) {
    this.stop();
    const { turn, fight } = this;
    const wanted = Promise.resolve(edit);
    // If the edit fails while earlier ones are awaited, the browser would report a rejection that nothing handles.
    wanted.catch(() => {});
    await this.#inOrder(async () => {
      if (fight !== this.fight) throw new Error("another battle has been opened");
      const opened = await this.#opened(this.desk.edit(this.future, turn, await wanted));
      this.#setBattle(opened);
    });
    await this.go(turn);
  }

  /** @param {number} future */
  showFuture(future) {
    return this.#switch(() => future);
  }

  /**
   * Shows the future whose number a function returns, or stays in this one if the function returns -1.
   * @param {() => number} select
   */
  async #switch(select) {
    const isOther = await this.#inOrder(async () => {
      const future = select();
      if (future < 0) return false;
      this.stop();
      this.#setBattle(await this.desk.show(future));
      return true;
    });
    if (isOther) await this.go(this.wanted);
  }

  /**
   * Shows another future beside this one, or no other.
   * @param {number | null} future
   */
  compare(future) {
    this.compared = future;
    if (future === null) this.beside = null;
    this.notify("look");
    return this.go(this.wanted);
  }

  get futures() {
    return this.opened?.futures ?? [];
  }

  /** The future that undo leads to, or -1. */
  get before() {
    return this.futures[this.future]?.parent ?? -1;
  }

  /** The future that redo leads to, or -1. */
  get after() {
    return this.futures[this.future]?.visited ?? -1;
  }

  undo() {
    return this.#switch(() => this.before);
  }

  redo() {
    return this.#switch(() => this.after);
  }
}
