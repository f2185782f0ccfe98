/** What all views use: functions that find and make elements, delayed calls, tips, colours and downloads. */

/** @typedef {Node | string | number | null | undefined | false} Part */

/** @param {string} id */
export function element(id) {
  const found = document.getElementById(id);
  if (!found) throw new Error(`the page has no #${id}`);
  return found;
}

/**
 * Returns the element with an id. Throws an Error if the page has none, or if it is not of the class `kind`.
 * @template {HTMLElement} T
 * @param {string} id
 * @param {new () => T} kind
 */
export function typed(id, kind) {
  const found = element(id);
  if (!(found instanceof kind)) throw new Error(`#${id} is not a ${kind.name}`);
  return found;
}

/**
 * Returns the buttons that a selector matches.
 * @param {string} selector
 */
export const buttons = (selector) =>
  [...document.querySelectorAll(selector)].flatMap((one) => (one instanceof HTMLButtonElement ? one : []));

/**
 * Calls a function when an element is clicked.
 * @param {string} id
 * @param {() => unknown} act
 */
export const onClick = (id, act) => element(id).addEventListener("click", act);

/** @param {Part[]} parts */
const nodes = (parts) =>
  parts.flatMap((part) => {
    if (part === null || part === undefined || part === false) return [];
    return typeof part === "number" ? String(part) : part;
  });

/**
 * Makes an element. A property that the element has is set; any other becomes an attribute unless null or false.
 * @template {keyof HTMLElementTagNameMap} K
 * @param {K} kind
 * @param {Record<string, any>} properties
 * @param {Part[]} parts
 * @returns {HTMLElementTagNameMap[K]}
 */
export function make(kind, properties = {}, ...parts) {
  const made = document.createElement(kind);
  for (const [name, value] of Object.entries(properties)) {
    if (name in made) Reflect.set(made, name, value);
    else if (value !== null && value !== undefined && value !== false) made.setAttribute(name, String(value));
  }
  made.append(...nodes(parts));
  return made;
}

/**
 * Replaces the content of an element. If a button there had the focus, the button in its place gets it.
 * @param {HTMLElement} place
 * @param {Part[]} parts
 */
export function refill(place, ...parts) {
  const at = [...place.querySelectorAll("button")].findIndex((button) => button === document.activeElement);
  place.replaceChildren(...nodes(parts));
  if (at >= 0) place.querySelectorAll("button")[at]?.focus({ preventScroll: true });
}

/**
 * Returns a function that calls `act` once `wait` milliseconds have passed since the function was called last.
 * @param {() => void} act
 * @param {number} wait
 */
export function debounce(act, wait) {
  /** @type {ReturnType<typeof setTimeout>} */
  let waiting;
  return () => {
    clearTimeout(waiting);
    waiting = setTimeout(act, wait);
  };
}

/** Milliseconds between two updates of numbers while a battle plays: more cannot be read, and each costs a layout. */
export const READING = 100;

/**
 * Returns a function that calls `act` once, `wait` milliseconds later, however often the function is called until then.
 * @param {() => void} act
 * @param {number} wait
 */
export function throttle(act, wait) {
  let isWaiting = false;
  return () => {
    if (isWaiting) return;
    isWaiting = true;
    setTimeout(() => {
      isWaiting = false;
      act();
    }, wait);
  };
}

/**
 * @param {number} value
 * @param {number} low
 * @param {number} high
 */
export const clamp = (value, low, high) => Math.max(low, Math.min(high, value));

/**
 * Returns a text whose parts in backquotes are code.
 * @param {string} text
 */
export function withCode(text) {
  const made = document.createDocumentFragment();
  text.split("`").forEach((part, index) => made.append(index % 2 ? make("code", {}, part) : part));
  return made;
}

/**
 * Places a tip beside a point of the window.
 * @param {HTMLElement} tip
 * @param {{x: number, y: number}} point
 */
export function placeTip(tip, { x, y }) {
  const { offsetWidth: width, offsetHeight: height } = tip;
  const left = x + 18 + width > innerWidth ? x - 18 - width : x + 18;
  tip.style.left = `${clamp(left, 4, Math.max(4, innerWidth - width - 4))}px`;
  tip.style.top = `${clamp(y - height / 2, 4, Math.max(4, innerHeight - height - 4))}px`;
}

/**
 * Returns a colour of the style sheet, for canvases, which know no variables.
 * @param {string} name
 */
export function colourOf(name) {
  const probe = make("i", { style: `color:var(${name})` });
  document.body.append(probe);
  const { color } = getComputedStyle(probe);
  probe.remove();
  return color;
}

/**
 * Downloads a text as a file.
 * @param {string} name
 * @param {string} text
 * @param {string} type
 */
export function download(name, text, type) {
  const link = make("a", { href: URL.createObjectURL(new Blob([text], { type })), download: name });
  link.click();
  setTimeout(() => URL.revokeObjectURL(link.href), 10_000);
}

/** Returns whether the page has the layout of a narrow window, which an embedded battle never has. */
export const isNarrow = () => matchMedia("(max-width: 56rem)").matches && !document.body.matches(".embed");
