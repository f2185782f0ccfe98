/** What the keys do. */
import { element, typed } from "../view/dom.js";
import { atCell } from "../view/breaks.js";

/** @typedef {import("../view/session.js").Session} Session */
/** @typedef {import("../view/theatre.js").Theatre} Theatre */
/**
 * @typedef {{session: Session, theatre: Theatre, fight: () => void, another: () => void, round: (by: number) => void,
 *   edit: () => void}} Acts
 */

/** By how much a key changes the speed of play. */
const SPEED_FACTOR = 1.6;
/** The elements that use keys themselves: fields except sliders, and elements that keys open or scroll. */
const FIELDS = "input:not([type='range']), select, textarea, summary, :not(canvas)[tabindex='0'], .CodeMirror, dialog";

/**
 * Returns what each key does. `far` is ten with shift, otherwise one.
 * @param {Acts} acts
 * @returns {Record<string, (far: number, isShift: boolean) => unknown>}
 */
function keysOf({ session, theatre, another, round, edit }) {
  const { track } = theatre;
  return {
    " ": () => (session.way ? session.stop() : session.play(1)),
    j: () => session.play(-1),
    k: () => session.stop(),
    l: () => session.play(1),
    ArrowLeft: (steps) => session.step(-steps),
    ArrowRight: (steps) => session.step(steps),
    ArrowUp: () => session.setRate(session.rate * SPEED_FACTOR),
    ArrowDown: () => session.setRate(session.rate / SPEED_FACTOR),
    Home: () => session.jump(0),
    End: () => session.jump(session.end),
    s: (_, isShift) => theatre.leap("splits", !isShift),
    x: (_, isShift) => theatre.leap("ends", !isShift),
    d: (_, isShift) => theatre.leap("dies", !isShift),
    "+": () => track.zoom(0.5, session.turn),
    "-": () => track.zoom(2, session.turn),
    0: () => track.show(0, session.end),
    z: () => session.undo(),
    y: () => session.redo(),
    "[": () => round(-1),
    "]": () => round(1),
    b: () => {
      const cell = session.pinned ?? session.view?.head ?? null;
      if (cell !== null) session.breaks.toggle(atCell(cell));
    },
    e: edit,
    n: another,
    ":": () => element("line").focus(),
    t: () => document.body.classList.toggle("alone"),
    "?": () => typed("helping", HTMLDialogElement).showModal(),
    Escape: () => {
      document.body.classList.remove("alone");
      session.explain(null);
      session.pin(null);
    },
  };
}

/**
 * Pins a neighbour of the cell that is looked at, if the key is an arrow. Returns whether the key is an arrow.
 * @param {Acts} acts
 * @param {string} key
 */
function moveInCore({ session, theatre: { core } }, key) {
  const steps = { ArrowLeft: -1, ArrowRight: 1, ArrowUp: -core.columns, ArrowDown: core.columns };
  if (!Object.hasOwn(steps, key)) return false;
  const at = session.pinned ?? session.view?.head ?? 0;
  session.pin((at + steps[/** @type {keyof typeof steps} */ (key)] + core.size) % core.size);
  return true;
}

/**
 * Acts on keys, unless what has the focus uses the key itself.
 * @param {Acts} acts
 */
export function listenToKeys(acts) {
  const keys = keysOf(acts);
  addEventListener("keydown", (event) => {
    const { key, ctrlKey, metaKey, altKey, shiftKey } = event;
    const target = event.target instanceof HTMLElement ? event.target : document.body;
    if ((ctrlKey || metaKey) && key === "Enter" && !target.closest("dialog")) {
      event.preventDefault();
      acts.fight();
      return;
    }
    if (altKey || ctrlKey || metaKey || target.closest(FIELDS) || element("battle").hidden) return;
    if (target.tagName === "BUTTON" && (key === " " || key === "Enter")) return;
    if (target.id === "speed" && key.startsWith("Arrow")) return;
    const act = keys[key] ?? keys[key.toLowerCase()];
    if (target.id === "core" && moveInCore(acts, key)) event.preventDefault();
    else if (act) {
      event.preventDefault();
      act(shiftKey ? 10 : 1, shiftKey);
    }
  });
}
