/**
 * Where the page is: its address names the view, the lesson or the round, and the history of the browser has the
 * battle, so that going back and loading the page again lead to what was shown.
 */
import { throttle } from "../view/dom.js";

/** @typedef {import("../model/fight.js").Fight} Fight */
/** @typedef {import("../view/session.js").Session} Session */
/** @typedef {{view: string, number: number | null}} ViewPlace `number` is the number of a lesson or a round */
/**
 * A battle as the history has it.
 * @typedef {{fight?: Fight, turn?: number, pinned?: number | null, plays?: boolean} & Partial<KeptWithBattle>} Battle
 */
/**
 * What else outlives the page: breakpoints; whether all rounds were fought, since fighting them again gives the same
 * results; the version with which the bench compares; and terms with which a hidden battle has not been fought yet.
 * @typedef {{breaks: import("../battle/conditions.js").Condition[], hasRounds: boolean,
 *   base: import("../model/fight.js").Source | null,
 *   terms: import("../view/host.js").MatchTerms | null}} KeptWithBattle
 */

/** The version of the form of entries of the history, which outlive this version of the page. */
const FORM = 1;

/**
 * Returns the place that the part of an address from `#` on names, or null if it names none.
 * @param {string} hash
 * @returns {ViewPlace | null}
 */
export function placeOf(hash) {
  const found = /^(?:#(battle|bench|league|learn)?(?:\/(\d{1,6}))?)?$/.exec(hash);
  return found && { view: found[1] ?? "battle", number: found[2] === undefined ? null : Number(found[2]) };
}

export class Places {
  /** How many calls of `arrive` are running: meanwhile a battle that is shown makes no entry of the history. */
  #arriving = 0;
  /** The address of the battle that is shown, and what `#keyOf` returns for it. */
  #battle = "";
  #key = "";
  /** Writes soon what is shown: a page that is left can write no more. */
  note = throttle(() => this.#write(location.hash, false), 400);

  /**
   * @param {Session} session
   * @param {() => number} lesson returns the number of the lesson that is open, from 1, or 0 if none is
   * @param {() => KeptWithBattle} kept
   */
  constructor(session, lesson, kept) {
    this.session = session;
    this.lesson = lesson;
    this.kept = kept;
    session.listen((change) => {
      if (change === "battle") this.#follow();
      this.note();
    });
  }

  /**
   * Calls a function that shows what the address names.
   * @param {() => Promise<void>} show
   */
  async arrive(show) {
    this.#arriving++;
    try {
      await show();
    } finally {
      this.#arriving--;
    }
  }

  /**
   * The battle in the present entry of the history, without any property if the entry has none.
   * @returns {Battle}
   */
  get written() {
    return history.state?.form === FORM ? history.state : {};
  }

  /**
   * Returns what a battle is recognised by: the lesson that is open, and the fight without its score formula, its edits
   * and the names of its sources.
   * @param {Fight} fight
   */
  #keyOf({ settings, seed, round, rounds, position, warriors }) {
    return JSON.stringify([this.lesson(), settings, seed, round, rounds, position, warriors.map(({ text }) => text)]);
  }

  /**
   * Returns whether a fight is the one that is shown, whatever the edits of both are.
   * @param {Fight} fight
   */
  isShown(fight) {
    return this.#keyOf(fight) === this.#key;
  }

  #follow() {
    const { fight } = this.session;
    if (!fight || this.isShown(fight)) return;
    this.#key = this.#keyOf(fight);
    this.#battle = this.#arriving && isBattle(location.hash) ? location.hash : this.#named;
    if (!this.#arriving) this.#write(this.#battle, true);
  }

  /** The address that names the lesson that is open, or else the round; "" for the first round. */
  get #named() {
    const [lesson, round] = [this.lesson(), this.session.fight?.round];
    return lesson ? `#learn/${lesson}` : round ? `#battle/${round}` : "";
  }

  /**
   * Writes the address of a view that the user has chosen.
   * @param {string} view
   */
  visit(view) {
    const hash = view === "battle" ? this.#battle : `#${view}`;
    if (hash !== location.hash) this.#write(hash, true);
  }

  /**
   * Writes the address of the battle again, after its lesson has been closed or if the link in the address could not be
   * opened.
   */
  rename() {
    const { fight } = this.session;
    if (fight) this.#key = this.#keyOf(fight);
    this.#battle = this.#named;
    this.#write(this.#battle, false);
  }

  /**
   * Writes an address with the battle that is shown.
   * @param {string} hash
   * @param {boolean} isNew whether it becomes a new entry of the history
   */
  #write(hash, isNew) {
    const { fight, opened, turn, pinned, way } = this.session;
    if (!fight || !opened) return;
    const battle = { form: FORM, fight: { ...fight, edits: opened.edits }, turn, pinned, plays: way > 0 };
    const state = { ...battle, ...this.kept() };
    const address = hash || location.pathname + location.search;
    try {
      if (isNew) history.pushState(state, "", address);
      else history.replaceState(state, "", address);
    } catch {
      // Browsers limit how often entries are written, and their size. Beyond these limits the address stays.
    }
  }
}

/**
 * Returns whether an address shows a battle: of a round, of a lesson that is open, or of a link.
 * @param {string} hash
 */
function isBattle(hash) {
  const place = placeOf(hash);
  return !place || place.view === "battle" || place.number !== null;
}
