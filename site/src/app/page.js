/** The page: its parts, and how they use each other. */
import { MAX_WARRIORS } from "../model/layout.js";
import { showSheet } from "../view/assist.js";
import { Bench } from "../view/bench.js";
import { Cells } from "../view/cells.js";
import { Console } from "../view/console.js";
import { buttons, clamp, element, onClick, refill, typed, withCode } from "../view/dom.js";
import { errorWords } from "../view/host.js";
import { League } from "../view/league.js";
import { Lines } from "../view/lines.js";
import { Rounds } from "../view/rounds.js";
import { Session } from "../view/session.js";
import { Shelf } from "../view/shelf.js";
import { Side } from "../view/side.js";
import { listenToDivider } from "../view/divider.js";
import { Theatre } from "../view/theatre.js";
import { Why } from "../view/why.js";
import { Pool } from "../worker/pool.js";
import { Arrival } from "./arrival.js";
import { listenToKeys } from "./keys.js";
import { Lessons } from "./lessons.js";
import { Places } from "./places.js";
import { listenToShare } from "./share.js";
import { Sources } from "./sources.js";
import { keep, keepLeague, keptLeague, stored } from "./store.js";
import { DEFAULT_TERMS, Terms } from "./terms.js";
import { Views } from "./views.js";

/** @typedef {import("../view/host.js").MatchTerms} MatchTerms */

const MAX_WORKERS = 16;
/** The greatest seed that "Surprise me" picks, all of whose digits the field shows. */
const MAX_DRAWN_SEED = 9999;

export class Page {
  /** The terms of a page on which nothing is stored. */
  defaultTerms = DEFAULT_TERMS;
  /** Whether the terms have changed since the battle was fought. */
  #hasNewTerms = false;

  /**
   * @param {import("../worker/pool.js").Parts} workerParts
   * @param {import("../worker/pool.js").Remote} desk
   * @param {import("./server.js").Server | null} server
   * @param {import("./parts.js").Data} given
   */
  constructor(workerParts, desk, server, { examples, lessons, meanings }) {
    this.server = server;
    this.examples = examples;
    this.meanings = meanings;
    // A processor is left for the page.
    this.pool = new Pool(workerParts, clamp((navigator.hardwareConcurrency || 4) - 1, 1, MAX_WORKERS));
    this.session = new Session(desk, (text) => this.complain(text));
    this.session.meanings = meanings;
    this.terms = new Terms(this, (changes, isShown) => this.#changeTerms(changes, isShown));
    this.terms.value = { ...DEFAULT_TERMS, ...stored.terms };
    this.shelf = this.#makeShelf();
    this.sources = new Sources(this.shelf, server, examples);
    const host = this.#host();
    this.bench = new Bench(host, () => this.#showBench());
    this.league = new League(host, server && server.league.bind(server), keptLeague(), keepLeague);
    this.theatre = new Theatre(this.session);
    this.views = new Views(this, (isShown) => keep({ desk: isShown }));
    const showLine = (/** @type {string} */ name, /** @type {number} */ line) => this.showLine(name, line);
    const side = new Side(this.session, showLine);
    this.cells = new Cells(this.session, side);
    const lines = new Lines(this.session, this.shelf);
    this.why = new Why(this.session, side, (marked) => lines.mark(marked));
    this.rounds = new Rounds(this.session, host, showLine);
    this.console = new Console(this.session);
    const learner = { ...host, session: this.session, examples, ...this.#learning() };
    this.lessons = new Lessons(learner, lessons, stored.done ?? [], (done) => keep({ done }));
    this.places = new Places(this.session, () => this.lessons.current, () => ({
      breaks: this.session.breaks.all,
      hasRounds: this.rounds.isFought,
      base: this.bench.base,
      terms: this.#hasNewTerms ? this.terms.value : null,
    }));
    this.arrival = new Arrival(this);
    this.session.listen((change) => this.#follow(change, side));
    this.sources.fill();
    if (server) element("download").textContent = "Save";
    if (stored.desk) this.views.showDesk(true);
    if (stored.curves) this.#showCurves(true);
    this.views.showTab("view");
  }

  /**
   * Returns the parts and functions of the page that the bench, the league and lessons use.
   * @returns {import("../view/host.js").Host}
   */
  #host() {
    return {
      pool: this.pool,
      shelf: this.shelf,
      meanings: this.meanings,
      terms: () => this.terms.value,
      note: () => this.places.note(),
      fight: (sources, terms) => {
        this.views.show("battle");
        return this.fight(sources, true, terms);
      },
    };
  }

  /** Returns the functions of the page that only lessons use. */
  #learning() {
    return {
      written: (/** @type {string} */ name) => this.sources.written(name),
      left: () => this.places.rename(),
      edit: () => this.views.showDesk(true),
      read: () => this.views.showTab("lesson"),
    };
  }

  /** @returns {Shelf} */
  #makeShelf() {
    return new Shelf({
      pool: this.pool,
      folder: this.server,
      meanings: this.meanings,
      terms: () => this.terms.value,
      store: () => this.sources.keep(),
      checked: () => this.bench.checked(),
      reveal: () => this.views.showDesk(true),
      isStale: (name, text) => this.#isStale(name, text),
    });
  }

  /**
   * Returns whether the battle that is shown has another text of a source.
   * @param {string} name
   * @param {string} text
   */
  #isStale(name, text) {
    return this.session.fight?.warriors.some((one) => one.name === name && one.text !== text) ?? false;
  }

  /**
   * Shows terms in the fields, from which the editor, the bench and the league take them.
   * @param {MatchTerms} terms
   */
  #showTerms(terms) {
    this.terms.value = terms;
    this.shelf.lint();
  }

  /**
   * Stores terms that the user has changed and uses them; the terms of a link or a lesson are not stored.
   * @param {Partial<MatchTerms>} changes
   * @param {boolean} isShown whether the battle that is shown depends on them
   */
  #changeTerms(changes, isShown) {
    keep({ terms: changes });
    this.shelf.lint();
    if (this.bench.isOpen) this.bench.fight();
    this.#hasNewTerms ||= isShown;
    this.places.note();
    this.#renew();
  }

  /** Fights the battle again if the terms have changed. A hidden battle is fought again when it is shown. */
  #renew() {
    const { fight } = this.session;
    if (this.#hasNewTerms && fight && !element("battle").hidden) this.fight(fight.warriors);
  }

  /**
   * Shows in the editor whether the battle has the editor's text and, if the battle is stopped, the line that is
   * executed next. Stops a battle that is hidden.
   * @param {import("../view/turns.js").Change} change
   * @param {Side} side
   */
  #follow(change, side) {
    const { session, shelf } = this;
    if (change === "battle") {
      this.complain("");
      shelf.sign();
    }
    if (session.way && element("battle").hidden) session.stop();
    if (change !== "turn") return;
    const head = session.way === 0 ? (session.view?.head ?? null) : null;
    const line = head === null ? null : side.lineOf(head);
    shelf.markNext(line?.name ?? "", line?.line ?? 0);
  }

  /** @param {string} text */
  complain(text) {
    refill(element("complaint"), withCode(text));
    element("complaint").hidden = !text;
  }

  /**
   * Fights and shows a round of a match, the first one unless `terms` has another. The fields show terms with settings.
   * @param {import("../model/fight.js").Source[]} warriors
   * @param {boolean} plays
   * @param {Partial<MatchTerms> & {round?: number}} terms
   */
  async fight(warriors, plays = true, terms = {}) {
    document.body.classList.add("busy");
    this.#hasNewTerms = false;
    try {
      const isMatch = warriors.length >= 1 && warriors.length <= MAX_WARRIORS;
      if (!isMatch) throw new Error(`A match has 1 to ${MAX_WARRIORS} warriors; select them in the list of sources.`);
      if (terms.settings) this.#showTerms({ ...this.terms.value, ...terms });
      await this.session.open({ ...this.terms.value, round: 0, ...terms, warriors, edits: [] }, { plays });
      document.body.classList.add("running");
    } catch (error) {
      this.complain(errorWords(error, warriors, this.meanings));
      element("complaint").scrollIntoView({ block: "nearest" });
    } finally {
      document.body.classList.remove("busy");
    }
  }

  /** Fights the sources that are marked, or the one in the editor if none is. */
  fightMarked() {
    this.views.show("battle");
    const { fighters, current } = this.shelf;
    return this.fight(fighters.length || !current ? fighters : [current]);
  }

  /** Fights two examples with a seed, all picked by chance. */
  another() {
    const { examples } = this;
    const pick = (/** @type {number} */ count) => Math.floor(Math.random() * count);
    const one = pick(examples.length);
    const other = (one + 1 + pick(examples.length - 1)) % examples.length;
    this.views.show("battle");
    this.lessons.show(0);
    const marked = this.shelf.mark([examples[one], examples[other]]);
    this.sources.keep();
    return this.fight(marked, true, { ...this.terms.value, seed: 1 + pick(MAX_DRAWN_SEED) });
  }

  /**
   * Shows another round of the match.
   * @param {number} by the number of rounds to go forwards, or backwards if it is negative
   */
  round(by) {
    const { latest } = this.session;
    if (!latest) return;
    const round = (latest.round + by + latest.rounds) % latest.rounds;
    this.session.open({ ...latest, edits: [], round });
  }

  /**
   * @param {string} name
   * @param {number} line
   */
  showLine(name, line) {
    this.views.showDesk(true);
    this.shelf.showLine(name, line);
  }

  /**
   * Shows the terms of a battle that was opened, and if `isGuest` marks its sources, which the list might lack.
   * @param {import("../model/fight.js").Fight} fight
   * @param {boolean} isGuest
   * @param {MatchTerms | null} [newer] terms with which it has not been fought yet
   */
  takeTerms(fight, isGuest, newer) {
    this.#hasNewTerms = Boolean(newer);
    this.#showTerms(newer ?? fight);
    if (isGuest) this.session.rename(this.shelf.mark(fight.warriors));
    document.body.classList.add("running");
  }

  #showBench() {
    if (element("bench").hidden) {
      this.places.visit("bench");
      this.views.show("bench");
    }
    this.views.showTab("view");
  }

  /** @param {boolean} hasCurves */
  #showCurves(hasCurves) {
    this.theatre.track.showCurves(hasCurves);
    element("curves").setAttribute("aria-pressed", String(hasCurves));
    keep({ curves: hasCurves });
  }

  listen() {
    for (const button of buttons("#views button")) {
      button.onclick = () => {
        const { view = "battle" } = button.dataset;
        this.places.visit(view);
        this.views.show(view);
        this.#renew();
      };
    }
    this.#listenToButtons();
    this.#welcome();
    listenToShare(this.session);
    listenToKeys({
      session: this.session,
      theatre: this.theatre,
      fight: () => this.fightMarked(),
      another: () => this.another(),
      round: (by) => this.round(by),
      edit: () => {
        this.views.showDesk(element("desk").hidden);
        if (!element("desk").hidden) this.shelf.editor.mirror.focus();
      },
    });
    // Errors that no part reports.
    addEventListener("unhandledrejection", ({ reason }) => this.complain(errorWords(reason, [], this.meanings)));
  }

  #listenToButtons() {
    onClick("sources", () => this.views.showDesk(element("desk").hidden));
    onClick("fight", () => this.fightMarked());
    onClick("fight-here", () => this.fightMarked());
    onClick("another", () => this.another());
    onClick("next-fight", () => this.another());
    onClick("whole-page", () => open(location.href.replace(/#embed&?/, "#"), "_blank", "noopener"));
    onClick("theme", changeTheme);
    onClick("words", showSheet);
    onClick("curves", () => this.#showCurves(!this.theatre.track.hasCurves));
    listenToDivider((desk) => keep({ width: desk }), stored.width);
    onClick("help", () => typed("helping", HTMLDialogElement).showModal());
    onClick("terms-show", () => {
      const isShown = element("terms-show").getAttribute("aria-expanded") === "true";
      element("terms-show").setAttribute("aria-expanded", String(!isShown));
    });
  }

  /** Shows to a newcomer a box that says what the page is, until the box is closed or the first lesson begins. */
  #welcome() {
    const close = () => {
      element("welcome").hidden = true;
      this.sources.keep();
      this.theatre.fit();
    };
    onClick("welcome-close", close);
    onClick("learn-now", () => {
      close();
      this.lessons.begin(this.lessons.lessons[0]);
    });
    element("welcome").hidden = !this.sources.isNew;
  }
}

function changeTheme() {
  const { dataset } = document.documentElement;
  const isDark = dataset.theme ? dataset.theme === "dark" : matchMedia("(prefers-color-scheme: dark)").matches;
  dataset.theme = isDark ? "light" : "dark";
  keep({ theme: dataset.theme });
}
