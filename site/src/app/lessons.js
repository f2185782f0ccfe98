/** Lessons: what they say, what they begin with, and whether the learner has reached their goals. */
import { element, make, refill, withCode } from "../view/dom.js";
import { errorWords } from "../view/host.js";
import { FORMULA, HILLS } from "../model/settings.js";
import { number, pluralize } from "../words/battle.js";

/** @typedef {import("../model/fight.js").Source} Source */
/** @typedef {import("../view/host.js").Host} Host */
/** @typedef {import("../view/session.js").Session} Session */
/**
 * A lesson, as site/lessons has them. `judge` is one of
 *
 * - `end`, `death`: the learner shows the last turn, or a turn in which a warrior dies
 * - `saved`: after edits of the learner no warrior dies
 * - `match`: the learner's warrior, of at most `cells` cells, wins or survives enough of 100 rounds
 * @typedef {object} Lesson
 * @property {string} id
 * @property {string} title
 * @property {string[]} text
 * @property {string} hint
 * @property {"end" | "death" | "saved" | "match"} judge
 * @property {{wins?: number, survives?: number, cells?: number}} goal
 * @property {string[]} opponents names of examples
 * @property {Source[]} sources the opponents whose sources the lesson contains
 * @property {string} start the source that the learner begins with, or ""
 */
/** @typedef {{isDone: boolean, text: string, watch?: HTMLElement}} Verdict `watch` is a button for a round not won */

const ROUNDS = 100;
const TERMS = { settings: HILLS["94nop"], seed: 1, rounds: ROUNDS, position: 0, formula: FORMULA };

export class Lessons {
  /**
   * @param {Host & {session: Session, edit: () => void, read: () => void, examples: Source[],
   *   written: (name: string) => string | undefined, left: () => void}} host `written` returns the learner's text of
   *   a source; `left` is called when a lesson is closed
   * @param {Lesson[]} lessons
   * @param {string[]} done the ids of the lessons that were done before
   * @param {(done: string[]) => void} keep
   */
  constructor(host, lessons, done, keep) {
    this.host = host;
    this.done = new Set(done);
    this.keep = keep;
    this.lessons = lessons;
    /** The number of the lesson that is open, from 1, or 0 if none is. */
    this.current = 0;
    this.#list();
  }

  #list() {
    refill(element("lessons"), ...this.lessons.map((lesson) => this.#card(lesson, false)));
    this.#showProgress();
  }

  /** Says how many lessons are done, and offers the next one. */
  #showProgress() {
    const open = this.lessons.filter(({ id }) => !this.done.has(id));
    const count = this.lessons.length - open.length;
    const [next] = open;
    const onclick = () => this.begin(next);
    const go = next && count > 0 && make("button", { className: "main", onclick }, `Continue: ${next.title}`);
    refill(element("progress"), count ? `${count} of ${this.lessons.length} done ` : "", go);
  }

  /**
   * Shows a lesson beside its battle, or none.
   * @param {number} number from 1, or 0 for none
   */
  show(number) {
    const lesson = this.lessons[number - 1];
    this.current = lesson ? number : 0;
    element("lesson-box").hidden = !lesson;
    if (!lesson) return;
    const leave = () => {
      this.show(0);
      this.host.left();
    };
    const close = make("button", { className: "link", onclick: leave }, "Close lesson");
    refill(element("lesson-box"), this.#card(lesson, true), close);
  }

  /**
   * Returns what a lesson says, with a button that opens it; an open lesson also has a button that checks it.
   * @param {Lesson} lesson
   * @param {boolean} isOpen
   */
  #card(lesson, isOpen) {
    const isDone = this.done.has(lesson.id);
    const isNext = !isOpen && lesson === this.lessons.find(({ id }) => !this.done.has(id));
    const verdict = make("p", { className: "verdict", role: "status" }, isDone ? "Done." : "");
    const card = make("article", { className: `lesson${isDone ? " done" : ""}` });
    const go = { className: isNext ? "main" : "", onclick: () => this.begin(lesson, isOpen) };
    const begin = make("button", go, lesson.start ? "Begin" : "Watch");
    const judge = make("button", { className: isDone ? "" : "main" }, "Check");
    judge.onclick = async () => {
      verdict.textContent = "Checking …";
      const { isDone: isPassed, text, watch } = await this.judge(lesson);
      refill(verdict, withCode(text), watch && " ", watch);
      card.classList.toggle("done", isPassed);
      judge.className = isPassed ? "" : "main";
      if (isPassed) this.#pass(lesson, card);
    };
    const hint = make("details", {}, make("summary", {}, "Hint"), make("p", {}, withCode(lesson.hint)));
    const paragraphs = lesson.text.map((text) => make("p", {}, withCode(text)));
    const parts = lesson.hint ? [...paragraphs, hint] : paragraphs;
    const row = make("p", { className: "row" }, begin, isOpen && judge);
    const heading = make(isOpen ? "h2" : "h3", {}, `${this.lessons.indexOf(lesson) + 1}. ${lesson.title}`);
    card.append(heading, ...parts, verdict, row);
    return card;
  }

  /**
   * Stores that a lesson is done, and offers the next one.
   * @param {Lesson} lesson
   * @param {HTMLElement} card
   */
  #pass(lesson, card) {
    this.keep([...this.done.add(lesson.id)]);
    this.#list();
    const next = this.lessons[this.lessons.indexOf(lesson) + 1];
    const row = card.querySelector(".row");
    if (!next || !row || row.childElementCount > 2) return;
    row.append(make("button", { className: "main", onclick: () => this.begin(next) }, "Next lesson"));
  }

  /**
   * Returns the sources against which a lesson is fought.
   * @param {Lesson} lesson
   */
  #opponents({ opponents, sources }) {
    return [...this.host.examples.filter(({ name }) => opponents.includes(name)), ...sources];
  }

  /**
   * Returns the learner's source for a lesson, or undefined if the lesson has not been begun.
   * @param {Lesson} lesson
   */
  #own({ id }) {
    const entry = this.host.shelf.find(`${id}.red`);
    return entry && { name: entry.name, text: entry.doc.getValue() };
  }

  /**
   * Opens a lesson: marks its sources, shows the learner's own one in the editor, and fights.
   * @param {Lesson} lesson
   * @param {boolean} isRead whether its text is already shown
   */
  begin(lesson, isRead = false) {
    const { shelf } = this.host;
    const name = `${lesson.id}.red`;
    if (lesson.start && !shelf.find(name)) {
      shelf.add({ name, text: this.host.written(name) ?? lesson.start, saved: lesson.start, kind: "lesson" });
    }
    const own = this.#own(lesson);
    const sources = shelf.mark([...(own ? [own] : []), ...this.#opponents(lesson)]);
    const entry = shelf.find(name);
    if (entry) shelf.show(entry);
    if (entry) this.host.edit();
    this.show(this.lessons.indexOf(lesson) + 1);
    const fought = this.host.fight(sources, TERMS);
    // On a narrow page the lesson is one of the tabs: it is read first, then the editor is shown.
    if (!isRead) this.host.read();
    else if (entry) this.host.edit();
    element("lesson-box").focus({ preventScroll: true });
    element("side").scrollTo(0, 0);
    return fought;
  }

  /**
   * Says whether the goal of a lesson is reached.
   * @param {Lesson} lesson
   * @returns {Promise<Verdict>}
   */
  async judge(lesson) {
    if (lesson.judge !== "match") return this.#judgeBattle(lesson);
    const own = this.#own(lesson);
    if (!own) return { isDone: false, text: "Press Begin first, then write your warrior." };
    try {
      return await this.#judgeMatch(lesson, own);
    } catch (error) {
      return { isDone: false, text: errorWords(error, [own], this.host.meanings) };
    }
  }

  /**
   * @param {Lesson} lesson
   * @returns {Verdict}
   */
  #judgeBattle(lesson) {
    const { session } = this.host;
    const texts = this.#opponents(lesson).map(({ text }) => text);
    const isShown = session.fight?.warriors.every(({ text }) => texts.includes(text)) ?? false;
    if (!isShown) return { isDone: false, text: "Watch the battle of this lesson first." };
    const { turn, end, known } = session;
    if (lesson.judge === "end") {
      const isEnd = turn === end;
      const found = isEnd ? "Correct: this is the last turn." : `Turn ${number(turn)} is not the last one.`;
      return { isDone: isEnd, text: found };
    }
    if (lesson.judge === "saved") {
      if (!session.opened?.edits.length) return { isDone: false, text: "You have not edited a cell yet." };
      const isSaved = known.deaths.length === 0;
      const verdict = isSaved ? "Both survive: you changed history." : "In this future a warrior still dies.";
      return { isDone: isSaved, text: verdict };
    }
    const isDeath = known.deaths.some((death) => death.turn === turn);
    const found = isDeath ? "Correct: a warrior dies in this turn." : `No warrior dies in turn ${number(turn)}.`;
    return { isDone: isDeath, text: found };
  }

  /**
   * @param {Lesson} lesson
   * @param {Source} own
   * @returns {Promise<Verdict>}
   */
  async #judgeMatch(lesson, own) {
    const { pool } = this.host;
    const { wins = 0, survives = 0, cells = Infinity } = lesson.goal;
    const { cells: code } = await pool.ask("assemble", [own.text, { ...TERMS, warriors: 2 }], "lesson", 2);
    const sources = [own, ...this.#opponents(lesson)];
    const entered = await pool.ask("warriors", [sources, TERMS], "lesson", 1);
    const fighters = entered.map(({ warrior }) => warrior);
    const { wins: won, ties, losses, scores } = await pool.ask("scores", [fighters, TERMS], "lesson", 1);
    const counts = `won ${won}, tied ${ties} and lost ${losses} of ${ROUNDS} rounds`;
    const result = `${pluralize(code.length, "cell")}; ${counts}.`;
    if (code.length > cells) return { isDone: false, text: `${result} Use at most ${cells} cells.` };
    if (won >= wins && won + ties >= survives) return { isDone: true, text: `${result} Well done.` };
    const missing = won < wins ? `win ${wins}` : `survive ${survives}`;
    const show = () => this.host.fight(sources, { ...TERMS, round: scores.indexOf(Math.min(...scores)) });
    const watch = make("button", { className: "link", onclick: show }, `Watch a ${losses ? "lost" : "tied"} round`);
    return { isDone: false, text: `${result} The goal is to ${missing}.`, watch };
  }
}
