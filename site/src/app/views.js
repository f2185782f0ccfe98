/** What is shown of the page: a view, the editor beside it, and the tab if there is no room for both. */
import { buttons, element, isNarrow } from "../view/dom.js";

/** @typedef {import("../view/bench.js").Bench} Bench */
/** @typedef {import("../view/league.js").League} League */
/** @typedef {import("../view/session.js").Session} Session */
/** @typedef {import("../view/shelf.js").Shelf} Shelf */
/** @typedef {import("../view/theatre.js").Theatre} Theatre */

export class Views {
  /** The cell and the death that were looked at last. */
  #looked = "";

  /**
   * @param {{session: Session, shelf: Shelf, theatre: Theatre, bench: Bench, league: League}} parts
   * @param {(isShown: boolean) => void} changed is called when the editor is shown or hidden
   */
  constructor(parts, changed) {
    this.parts = parts;
    this.changed = changed;
    for (const button of buttons("#tabs button")) {
      button.onclick = () => {
        const { tab = "view" } = button.dataset;
        if (tab === "code") this.showDesk(true);
        else this.showTab(tab);
      };
    }
    parts.session.listen((change) => {
      if (change === "look") this.#look();
    });
  }

  /** @param {string} view battle, bench, league or learn */
  show(view) {
    const { bench, league, session } = this.parts;
    for (const page of document.querySelectorAll("[data-page]")) {
      if (page instanceof HTMLElement) page.hidden = page.dataset.page !== view;
    }
    for (const button of buttons("#views button")) {
      if (button.dataset.view === view) button.setAttribute("aria-current", "page");
      else button.removeAttribute("aria-current");
      if (button.dataset.view === view) element("tab-view").textContent = button.textContent;
    }
    document.body.dataset.view = view;
    if (view === "bench") {
      this.showDesk(true);
      bench.open();
    } else bench.close();
    if (view === "league") league.draw();
    this.showTab(isNarrow() || element("desk").hidden ? "view" : "code");
    if (view !== "battle") session.stop();
  }

  /**
   * Shows a tab, which is only a part of the page if there is no room for all of it.
   * @param {string} tab view, code or lesson
   */
  showTab(tab) {
    document.body.dataset.tab = tab;
    for (const button of buttons("#tabs button")) {
      button.setAttribute("aria-current", button.dataset.tab === tab ? "page" : "false");
    }
    if (tab === "code") this.parts.shelf.editor.mirror.refresh();
    else this.parts.theatre.fit();
    scrollTo(0, 0);
  }

  /** @param {boolean} isShown */
  showDesk(isShown) {
    const { shelf } = this.parts;
    element("desk").hidden = !isShown;
    element("sources").setAttribute("aria-expanded", String(isShown));
    this.changed(isShown);
    if (isShown) shelf.list();
    this.showTab(isShown ? "code" : "view");
  }

  /** Shows the details in place of the editor as soon as another cell or a death is looked at. */
  #look() {
    const { pinned, chain } = this.parts.session;
    const looked = `${pinned} ${chain?.death.turn}`;
    const isOther = looked !== this.#looked && (pinned !== null || chain !== null);
    this.#looked = looked;
    if (isOther && !isNarrow() && element("tabs").offsetHeight > 0) this.showTab("view");
  }
}
