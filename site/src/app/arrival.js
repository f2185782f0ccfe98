/** Shows what the address of the page names, when the page is loaded and whenever the address changes. */
import { MAX_WARRIORS } from "../model/layout.js";
import { FORMULA } from "../model/settings.js";
import { clamp, element, make } from "../view/dom.js";
import { errorWords } from "../view/host.js";
import { readAddress, unpack } from "./link.js";
import { ownFight } from "./parts.js";
import { placeOf } from "./places.js";
import { FIRST } from "./sources.js";
import { damagedNames, deleteDamaged } from "./store.js";

/** Returns whether the user wants no movement. */
const isStill = () => matchMedia("(prefers-reduced-motion: reduce)").matches;

export class Arrival {
  /** @param {import("./page.js").Page} page */
  constructor(page) {
    this.page = page;
  }

  /** Begins with what the address names, or with the marked sources if it names no battle. */
  async begin() {
    const { page } = this;
    addEventListener("popstate", () => this.#follow());
    const { breaks, base } = page.places.written;
    if (base) page.bench.compare(base);
    await page.places.arrive(async () => {
      await this.#arrive(ownFight());
      if (!page.session.latest) await this.#beginAnyway();
    });
    if (breaks?.length) page.session.breaks.set(breaks);
    this.#offerToDelete(damagedNames());
  }

  /** @param {string[]} names of the damaged entries in the browser's storage */
  #offerToDelete(names) {
    if (!names.length) return;
    this.page.complain(`Something that this browser had stored is damaged and was left out: ${names.join(", ")}. `);
    const onclick = () => {
      deleteDamaged();
      this.page.complain("");
    };
    element("complaint").append(make("button", { className: "link", onclick }, "Delete what is damaged"));
  }

  /** Follows the user back or forth, or to an address that was typed. */
  async #follow() {
    const { text, selection } = readAddress(location.hash);
    const selects = Object.values(selection).some((one) => one !== undefined);
    if (!placeOf(location.hash) && !text && !selects) return;
    await this.page.places.arrive(() => this.#arrive(selects ? ownFight() : ""));
  }

  /**
   * Shows what the address names: a view, a battle of the browser's history, a battle that the address or the page
   * carries, a lesson, or a round.
   * @param {string} carried the battle of the page, or ""
   */
  async #arrive(carried) {
    const { page } = this;
    const { lessons, places } = page;
    const { text, selection, isEmbedded } = readAddress(location.hash);
    const place = placeOf(location.hash);
    document.body.classList.toggle("embed", isEmbedded);
    const isBattle = !place || place.view === "battle" || place.number !== null;
    page.views.show(isBattle || !place ? "battle" : place.view);
    lessons.show(place?.view === "learn" ? (place.number ?? 0) : 0);
    const { fight, ...shown } = places.written;
    if (fight && places.isShown(fight)) return;
    if (fight) await this.#return(fight, shown, isBattle && (!place || lessons.current > 0));
    else if (text || carried) await this.#openLink(text || carried, selection);
    else if (lessons.current) await lessons.begin(lessons.lessons[lessons.current - 1]);
    else if (isBattle && place) await page.fight(this.#marked, !isStill(), { round: this.#roundOf(place) });
  }

  /**
   * Shows a battle of the browser's history again.
   * @param {import("../model/fight.js").Fight} fight
   * @param {import("./places.js").Battle} shown
   * @param {boolean} isGuest whether its sources might be missing from the list
   */
  async #return(fight, shown, isGuest) {
    const { page } = this;
    try {
      await page.session.open(fight, { ...shown, plays: shown.plays && !element("battle").hidden });
      page.takeTerms(fight, isGuest, shown.terms);
      if (shown.hasRounds) page.rounds.fight();
    } catch (error) {
      page.complain(errorWords(error, fight.warriors, page.meanings));
    }
  }

  /** The marked sources, at most as many as a match can have; the first source if none is marked. */
  get #marked() {
    const { fighters, all } = this.page.shelf;
    return fighters.length ? fighters.slice(0, MAX_WARRIORS) : [all[0]];
  }

  /** @param {import("./places.js").ViewPlace} place */
  #roundOf({ view, number }) {
    return view === "battle" ? clamp(number ?? 0, 0, this.page.terms.value.rounds - 1) : 0;
  }

  /** Shows a battle, even if the address, the sources that are marked or the terms have errors. */
  async #beginAnyway() {
    const { page } = this;
    const isPlayed = !element("battle").hidden && !isStill();
    const complaint = element("complaint").textContent ?? "";
    await page.fight(this.#marked, isPlayed);
    const faults = [complaint, ...(page.server?.faults ?? []), element("complaint").textContent ?? ""];
    const first = page.examples.filter(({ name }) => FIRST.includes(name));
    if (!page.session.latest) await page.fight(first, isPlayed, page.defaultTerms);
    page.complain([...new Set(faults)].join(" ").trim());
    if (!page.session.latest) element("loading").textContent = "The simulator does not start.";
    // A link that cannot be opened is not tried again when the page is loaded again.
    if (readAddress(location.hash).text) page.places.rename();
  }

  /**
   * @param {string} text
   * @param {import("./link.js").Selection} selection
   */
  async #openLink(text, selection) {
    const { page } = this;
    /** @type {import("../model/fight.js").Source[]} */
    let warriors = [];
    try {
      const { fight, turn, pinned } = await unpack(text, selection);
      warriors = fight.warriors;
      if (fight.formula !== FORMULA) await page.pool.ask("checkFormula", [fight.formula], "link", 3);
      const isEmbedded = document.body.classList.contains("embed");
      await page.session.open(fight, { turn, pinned, plays: turn === 0 && !isStill() && !isEmbedded });
      page.takeTerms(fight, true);
    } catch (error) {
      page.complain(`This link cannot be opened. ${errorWords(error, warriors, page.meanings)}`);
    }
  }
}
