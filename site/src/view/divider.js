/** The divider between the editor and what is beside it. */
import { clamp, element } from "./dom.js";

/** In pixels: the least widths of the editor and of the rest of the page, and how far a key moves the divider. */
const LEAST = 260;
const REST = 360;
const STEP = 24;

/**
 * Lets the divider be dragged, or moved by the arrow keys.
 * @param {(width: number) => void} changed is called with the new width, or with 0 after a double click
 * @param {number | undefined} width of the editor in pixels; 0 stands for its usual width
 */
export function listenToDivider(changed, width) {
  const [divider, desk] = [element("divider"), element("desk")];
  const take = (/** @type {number} */ wanted) => {
    const taken = Math.round(clamp(wanted, LEAST, Math.max(LEAST, innerWidth - REST)));
    document.body.style.setProperty("--desk", `${taken}px`);
    divider.setAttribute("aria-valuenow", String(taken));
    return taken;
  };
  if (width) take(width);
  divider.onpointerdown = (event) => {
    event.preventDefault();
    divider.setPointerCapture(event.pointerId);
    divider.onpointermove = ({ clientX }) => take(clientX - desk.getBoundingClientRect().left);
  };
  divider.onpointerup = ({ clientX }) => {
    divider.onpointermove = null;
    changed(take(clientX - desk.getBoundingClientRect().left));
  };
  divider.onkeydown = ({ key }) => {
    const by = { ArrowLeft: -STEP, ArrowRight: STEP }[key];
    if (by) changed(take(desk.offsetWidth + by));
  };
  divider.ondblclick = () => {
    document.body.style.removeProperty("--desk");
    changed(0);
  };
}
