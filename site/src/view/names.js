/** The list of sources: the name of each, and a box that selects it. */
import { lastOf } from "../engine/warrior.js";
import { make } from "./dom.js";

/** @typedef {import("./shelf.js").OpenSource} OpenSource */

const KINDS = { own: "", example: "example", guest: "from a link", lesson: "lesson" };

/**
 * Returns the item of the list for a source.
 * @param {OpenSource} entry
 * @param {boolean} isShown whether it is in the editor
 * @param {{show: (entry: OpenSource) => void, mark: (entry: OpenSource, fights: boolean) => void}} acts
 */
export function lineOf(entry, isShown, { show, mark }) {
  const box = make("input", { type: "checkbox", checked: entry.fights, "aria-label": `Select ${entry.name}` });
  box.onchange = () => mark(entry, box.checked);
  const here = { className: "bare", onclick: () => show(entry), "aria-current": String(isShown) };
  const parts = [make("label", { title: "Select" }, box), make("button", here, ...titleOf(entry))];
  return make("li", { className: isShown ? "shown" : "" }, ...parts, make("small", {}, KINDS[entry.kind]));
}

/**
 * Returns what the list shows for a source: its name, with a dot if it is not saved, and its warrior's name if that
 * differs.
 * @param {OpenSource} entry
 */
export function titleOf({ name, doc, saved }) {
  const text = doc.getValue();
  const stem = name.replace(/\.red$/, "");
  const warrior = lastOf(text, "name") || stem;
  const isOther = warrior.toLowerCase() !== stem.toLowerCase();
  return [stem + (text === saved ? "" : " •"), isOther ? make("small", {}, ` ${warrior}`) : ""];
}
