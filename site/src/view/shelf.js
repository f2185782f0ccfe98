/** The list of sources: one is in the editor, and the marked ones fight. */
import { MAX_SOURCE_SIZE } from "../model/settings.js";
import { pluralize } from "../words/battle.js";
import { Checker } from "./checker.js";
import { debounce, download, element, make, onClick, refill, withCode } from "./dom.js";
import { Editor, newDocument } from "./editor.js";
import { listenToFiles, textOf } from "./files.js";
import { lineOf, titleOf } from "./names.js";

/** @typedef {import("codemirror").Document} Document */
/** @typedef {import("../model/fight.js").Source} Source */
/** @typedef {import("./rounds.js").Hits} Hits */
/**
 * What a source is: the user's own, an example, one of a link, or the user's own for a lesson.
 * @typedef {"own" | "example" | "guest" | "lesson"} Kind
 */
/**
 * `made` is the time at which the source was made, in milliseconds; for a source of an older store, its index there.
 * @typedef {{name: string, doc: Document, saved: string, kind: Kind, fights: boolean, made: number}} OpenSource
 */
/**
 * Where sources are saved. `save` returns null, or why the source was not saved; `isOther` is whether something else
 * changed the file. `load` returns the text of a file as it is now, or null if the file is gone.
 * @typedef {object} Folder
 * @property {(name: string, text: string, isForced: boolean) => Promise<{text: string, isOther: boolean} | null>} save
 * @property {(name: string) => Promise<string | null>} load
 */
/**
 * @typedef {object} Host
 * @property {import("../worker/pool.js").Pool} pool
 * @property {Folder | null} folder
 * @property {Record<string, string>} meanings
 * @property {() => {settings: import("../model/settings.js").Settings, rounds: number}} terms
 * @property {() => boolean} store stores the sources and which of them fight; returns whether the browser allows that
 * @property {() => void} checked is called when the source in the editor was assembled, or other sources fight
 * @property {() => void} reveal shows the editor
 * @property {(name: string, text: string) => boolean} isStale whether the battle has another text of the source
 */

/**
 * The kinds of sources that are in the list only while they fight: they are found again in their link or lesson.
 * @type {Kind[]}
 */
const GUESTS = ["guest", "lesson"];
/** The lines of a new source. */
const NEW = [";redcode-94", ";name My first warrior", ";author ", "; What does it do?", ""];
NEW.push("start   MOV     0, 1            ; copies itself to the next cell", "        END     start", "");

export class Shelf {
  /** @type {OpenSource[]} */
  sources = [];
  /**
   * Examples that the user has removed.
   * @type {Source[]}
   */
  removed = [];
  /** @type {OpenSource | null} */
  shown = null;
  #isStored = true;
  /** @type {Hits} */
  #hits = new Map();

  /** @param {Host} host */
  constructor(host) {
    this.host = host;
    const [lint, store] = [debounce(() => this.lint(), 250), debounce(() => this.#store(), 400)];
    this.editor = new Editor({
      save: () => this.save(false),
      // Escape focuses what follows the editor: if the editor only lost the focus, Tab would lead into it again.
      leave: () => element("load-head").focus(),
      changed: () => {
        // What a stranger has written becomes the user's own as soon as it is changed.
        if (this.shown?.kind === "guest" && this.shown.doc.getValue() !== this.shown.saved) this.shown.kind = "own";
        this.sign();
        lint();
        store();
      },
    });
    onClick("new", () => this.#create());
    onClick("remove", () => this.#remove());
    onClick("restore", () => this.#restore());
    onClick("download", () => this.save(false));
    this.checker = new Checker(host, this.editor);
    listenToFiles((files) => this.take(files));
  }

  /**
   * Adds a source. Its name gets a number if there is another one of that name.
   * @param {Source & {kind?: Kind, saved?: string, fights?: boolean, made?: number}} source
   */
  add({ name, text, kind = "own", saved = text, fights = false, made = Date.now() }) {
    const entry = { name: this.freeName(name), doc: newDocument(text), saved, kind, fights, made };
    this.sources.push(entry);
    return entry;
  }

  /**
   * Returns a name that no source has: the given one, ending in .red, or with a number.
   * @param {string} name
   */
  freeName(name) {
    const stem = name.replace(/\.(red|rc|txt)$/i, "");
    let made = `${stem}.red`;
    for (let count = 2; this.find(made); count++) made = `${stem}-${count}.red`;
    return made;
  }

  /** @param {string} name */
  find(name) {
    return this.sources.find((entry) => entry.name === name);
  }

  /** The sources that are marked. */
  get fighters() {
    return this.sources.filter(({ fights }) => fights).map(sourceOf);
  }

  get all() {
    return this.sources.map(sourceOf);
  }

  /** The source in the editor. */
  get current() {
    return this.shown && sourceOf(this.shown);
  }

  /**
   * Marks these sources and no others. A source is added as a guest unless there is one with the same text. Guests that
   * fight no more leave the list.
   * @param {Source[]} sources
   */
  mark(sources) {
    const holding = (/** @type {string} */ text) => this.sources.find(({ doc }) => doc.getValue() === text);
    const found = sources.map((source) => holding(source.text) ?? this.add({ ...source, kind: "guest" }));
    for (const entry of this.sources) entry.fights = found.includes(entry);
    this.sources = this.sources.filter(({ kind, fights }) => fights || !GUESTS.includes(kind));
    this.list();
    if (!this.shown || !found.includes(this.shown)) this.show(found[0]);
    return found.map(sourceOf);
  }

  /**
   * Takes files that were dropped or chosen.
   * @param {File[]} files
   */
  async take(files) {
    const large = files.filter(({ size }) => size > MAX_SOURCE_SIZE).map(({ name }) => name);
    for (const file of files) {
      if (large.includes(file.name)) continue;
      this.#enter({ name: file.name, text: await textOf(file) });
    }
    this.#store();
    this.host.reveal();
    if (large.length) this.say(`${large.join(", ")}: too large; a source has at most 1 MB`);
  }

  /** Stores the sources, and says so if the browser has begun or ceased to allow that. */
  #store() {
    const isStored = this.host.store();
    if (isStored === this.#isStored) return;
    this.#isStored = isStored;
    this.sign();
  }

  /**
   * Adds a source and shows it. The new source fights, and the one that was shown before no longer does.
   * @param {{name: string, text: string, saved?: string}} source
   */
  #enter(source) {
    if (this.shown) this.shown.fights = false;
    this.show(this.add({ ...source, fights: true }));
  }

  #create() {
    this.#enter({ name: "warrior.red", saved: "", text: NEW.join("\n") });
    this.#store();
    this.editor.mirror.focus();
    this.editor.mirror.setCursor(1, NEW[1].length);
  }

  #remove() {
    const { shown } = this;
    if (!shown || this.sources.length < 2) return;
    const text = shown.doc.getValue();
    const isFree = text === shown.saved && shown.kind !== "own";
    const where = this.host.folder && shown.saved ? "The file stays in the folder." : "It is stored nowhere else.";
    if (!isFree && !confirm(`Remove ${shown.name} from the list? ${where}`)) return;
    if (shown.kind === "example") this.removed.push({ name: shown.name, text: shown.saved });
    this.drop(shown);
    this.#store();
  }

  /**
   * Takes a source out of the list.
   * @param {OpenSource} entry
   */
  drop(entry) {
    this.sources = this.sources.filter((one) => one !== entry);
    if (entry === this.shown) this.show(this.sources[0]);
  }

  /** Restores the text of the example in the editor if it was changed, otherwise the examples that were removed. */
  #restore() {
    const { shown } = this;
    if (shown && isEdited(shown)) shown.doc.setValue(shown.saved);
    else for (const example of this.removed.splice(0)) this.add({ ...example, kind: "example" });
    this.list();
    this.sign();
    this.#store();
  }

  /**
   * Saves the source in the editor: to the folder if there is one, otherwise as a download.
   * @param {boolean} isForced whether a file that something else changed is overwritten
   */
  async save(isForced) {
    const { shown } = this;
    const { folder } = this.host;
    if (!shown) return;
    const { name, text } = sourceOf(shown);
    if (!folder) download(name, text, "text/plain");
    else {
      const fault = await folder.save(name, text, isForced);
      if (fault) {
        const force = make("button", { className: "link", onclick: () => this.save(true) }, "Overwrite");
        const reload = make("button", { className: "link", onclick: () => this.#reload(shown) }, "Reload");
        refill(element("saved"), withCode(`${fault.text}. `), ...(fault.isOther ? [force, " or ", reload] : []));
        return;
      }
    }
    if (folder || shown.kind !== "example") shown.saved = text;
    if (folder) shown.kind = "own";
    this.list();
    this.sign();
    this.#store();
    if (folder) this.say("Saved");
  }

  /**
   * Replaces the text of a source by that of its file in the folder.
   * @param {OpenSource} entry
   */
  async #reload(entry) {
    const text = await this.host.folder?.load(entry.name);
    if (typeof text !== "string") {
      this.say(`${entry.name} is no longer in the folder`);
      return;
    }
    entry.saved = text;
    entry.doc.setValue(text);
    this.list();
    this.sign();
  }

  /** @param {string} text */
  say(text) {
    element("saved").textContent = text;
  }

  /** Draws the list. */
  list() {
    const mark = (/** @type {OpenSource} */ entry, /** @type {boolean} */ fights) => {
      entry.fights = fights;
      this.#store();
      this.host.checked();
    };
    const acts = { mark, show: (/** @type {OpenSource} */ entry) => this.show(entry) };
    refill(element("names"), ...this.sources.map((entry) => lineOf(entry, entry === this.shown, acts)));
    element("names").querySelector(".shown")?.scrollIntoView({ block: "nearest" });
  }

  /** @param {OpenSource} entry */
  show(entry) {
    this.shown = entry;
    this.editor.show(entry.doc);
    this.list();
    this.sign();
    this.#showHits();
    this.lint();
  }

  /**
   * Shows beside the lines how often warriors died on them, and how often the lines killed others.
   * @param {Hits} hits
   */
  takeHits(hits) {
    this.#hits = hits;
    this.#showHits();
  }

  #showHits() {
    this.editor.showHits(this.#hits.get(this.shown?.name ?? "") ?? new Map());
  }

  /**
   * Shows a line of a source.
   * @param {string} name
   * @param {number} line
   */
  showLine(name, line) {
    const entry = this.find(name);
    if (!entry) return;
    if (entry !== this.shown) this.show(entry);
    this.editor.showLine(line);
  }

  /**
   * Marks the line that is executed next, or none.
   * @param {string} name
   * @param {number} line
   */
  markNext(name, line) {
    this.editor.markNext(this.find(name)?.doc ?? null, line);
  }

  /** Says whether the source in the editor is saved, and whether the battle that is shown has it. */
  sign() {
    const { shown, host } = this;
    if (!shown) return;
    const text = shown.doc.getValue();
    const button = element("names").querySelector(".shown button");
    if (button) button.replaceChildren(...titleOf(shown));
    const isChanged = isEdited(shown);
    const count = this.removed.length;
    element("restore").hidden = !isChanged && count === 0;
    element("restore").textContent = `Restore ${isChanged ? "the example" : pluralize(count, "example")}`;
    const stored = `${this.#isStored ? "Stored" : "Not stored"} in this browser; Download saves a file`;
    const unsaved = host.folder ? "Not saved" : stored;
    if (host.isStale(shown.name, text)) this.say("Changed since this battle; Fight starts a new one");
    else this.say(text === shown.saved ? "" : unsaved);
  }

  /** Shows the errors of the source in the editor, or what it makes. */
  async lint() {
    if (this.shown) await this.checker.check(this.shown);
  }
}

/**
 * @param {OpenSource} entry
 * @returns {Source}
 */
const sourceOf = ({ name, doc }) => ({ name, text: doc.getValue() });

/** @param {OpenSource} entry */
const isEdited = ({ kind, doc, saved }) => kind === "example" && doc.getValue() !== saved;
