/** The sources of the page: where they come from, and where they are kept. */
import { keep, keepSource, keptSource, keptSources, listenToSources, stored } from "./store.js";

/** @typedef {import("../model/fight.js").Source} Source */
/** @typedef {import("../view/shelf.js").Shelf} Shelf */
/** @typedef {import("./server.js").Server} Server */
/** @typedef {import("./store.js").KeptSource} KeptSource */

/** The examples that a newcomer sees first. */
export const FIRST = ["dwarf.red", "imp.red"];

export class Sources {
  /**
   * What this window knows to be stored.
   * @type {Map<string, KeptSource>}
   */
  #kept = keptSources();

  /**
   * @param {Shelf} shelf
   * @param {Server | null} server
   * @param {Source[]} examples
   */
  constructor(shelf, server, examples) {
    this.shelf = shelf;
    this.server = server;
    this.examples = examples;
    /** Whether nothing is stored, as for a newcomer. */
    this.isNew = !stored.marked && this.#kept.size === 0;
    listenToSources((name, now, before) => this.#takeOther(name, now, before));
    if (server) addEventListener("focus", () => this.#askFolder());
  }

  /** Takes the files of the folder, the sources that were stored, and the examples. Shows one of them. */
  fill() {
    const { server, shelf, examples } = this;
    const files = (server?.sources ?? []).filter(({ isExample }) => !isExample);
    for (const { name, text } of files) this.#addFile(name, text);
    const removed = stored.removed ?? [];
    for (const example of examples) {
      if (removed.includes(example.name)) shelf.removed.push(example);
      else if (!shelf.find(example.name)) this.#addExample(example);
    }
    for (const [name, kept] of this.#kept) {
      // If there is a folder, the browser keeps only texts that were not saved there.
      const isElsewhere = kept.kind === "lesson" || shelf.find(name) || (server && kept.text === kept.saved);
      // The source may be an example of another version, which the user has changed.
      if (!isElsewhere) shelf.add({ name, ...kept, kind: "own", saved: server ? "" : kept.saved });
    }
    const other = FIRST.find((name) => name !== files[0]?.name) ?? "";
    const first = files.length ? [files[0].name, other] : FIRST;
    const known = (stored.marked ?? []).filter((name) => shelf.find(name));
    for (const entry of shelf.sources) entry.fights = (known.length ? known : first).includes(entry.name);
    shelf.show(shelf.find(stored.shown ?? "") ?? shelf.sources.find(({ fights }) => fights) ?? shelf.sources[0]);
  }

  /**
   * Adds a file under its own name, with the text that was not saved if there is one.
   * @param {string} name
   * @param {string} text
   */
  #addFile(name, text) {
    const draft = this.#kept.get(name);
    const isDraft = draft && draft.kind !== "lesson" && draft.text !== draft.saved;
    this.shelf.add({ name, text: isDraft ? draft.text : text, saved: text }).name = name;
  }

  /** @param {Source} example */
  #addExample({ name, text }) {
    const kept = this.#kept.get(name);
    // The user's own source can have the name of an example of a later version.
    const own = kept && kept.kind !== "lesson" ? kept.text : text;
    this.shelf.add({ name, text: own, saved: text, kind: "example" });
  }

  /**
   * Returns the text of a lesson's source, or undefined if none was written.
   * @param {string} name
   */
  written(name) {
    const kept = this.#kept.get(name);
    return kept?.kind === "lesson" ? kept.text : undefined;
  }

  /**
   * Stores the changes of the sources. Returns whether the browser allows that.
   * @returns {boolean}
   */
  keep() {
    const { shelf, server } = this;
    let isKept = true;
    for (const entry of shelf.sources) {
      const text = entry.doc.getValue();
      const before = this.#kept.get(entry.name);
      const { saved, kind, made } = entry;
      // An unchanged source of a link, a lesson or the kit is found there again.
      const isNeeded = text !== saved || (kind === "own" && !server);
      const isSame = before?.text === text && before.saved === saved && before.kind === kind;
      if (isNeeded ? isSame : !before) continue;
      // Another window may have stored this source meanwhile.
      const now = keptSource(entry.name);
      if (now && now.text !== before?.text) this.#takeOther(entry.name, now, before ?? null);
      isKept = this.#set(entry.name, isNeeded ? { text, saved, kind: entry.kind, made } : null) && isKept;
    }
    for (const [name, { kind }] of this.#kept) if (kind !== "lesson" && !shelf.find(name)) this.#set(name, null);
    const marked = shelf.sources.filter(({ fights }) => fights).map(({ name }) => name);
    const removed = shelf.removed.map(({ name }) => name);
    return keep({ marked, removed, shown: shelf.shown?.name }) && isKept;
  }

  /**
   * @param {string} name
   * @param {KeptSource | null} source
   */
  #set(name, source) {
    if (!keepSource(name, source)) return false;
    if (source) this.#kept.set(name, source);
    else this.#kept.delete(name);
    return true;
  }

  /**
   * Takes what another window has stored. A text that was changed here, too, stays as another source.
   * @param {string} name
   * @param {KeptSource | null} now
   * @param {KeptSource | null} before
   */
  #takeOther(name, now, before) {
    const { shelf } = this;
    const entry = shelf.find(name);
    if (now) this.#kept.set(name, now);
    else this.#kept.delete(name);
    if (now?.kind === "lesson" && !entry) return;
    const text = entry?.doc.getValue();
    const isChanged = entry && text !== (before?.text ?? entry.saved) && text !== now?.text;
    if (entry && isChanged) Object.assign(entry, { name: shelf.freeName(name), kind: "own" });
    if (now && (!entry || isChanged)) shelf.add({ name, ...now });
    else if (now && entry && text !== now.text) entry.doc.setValue(now.text);
    else if (!now && entry && !isChanged) {
      if (entry.kind === "example") entry.doc.setValue(entry.saved);
      else shelf.drop(entry);
    }
    shelf.list();
    shelf.sign();
  }

  /** Takes the files of the folder as they are now. A text that was changed here stays. */
  async #askFolder() {
    const { server, shelf } = this;
    for (const file of (await server?.changed()) ?? []) {
      const { name, text, seen } = file;
      const entry = shelf.find(name);
      if (!entry) this.#addFile(name, text);
      // A source stays here if its file is gone from the folder.
      else if (!seen) entry.saved = "";
      else if (entry.doc.getValue() === entry.saved) {
        entry.saved = text;
        entry.doc.setValue(text);
      } else continue;
      server?.take(file);
    }
    shelf.list();
    shelf.sign();
  }
}
