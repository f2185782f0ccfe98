/** A link to the fight that is shown, and a page in one file. */
import { download, element, onClick, typed } from "../view/dom.js";
import { number } from "../words/battle.js";
import { pack } from "./link.js";
import { pageWith } from "./parts.js";
import { isServed } from "./server.js";

/** @typedef {import("../view/session.js").Session} Session */

/** Names of this machine. */
const LOCAL = /^((.*\.)?localhost|127\..*|0\.0\.0\.0|\[::1\])$/;
/** Whether others can open the address of this page: it is not on this machine, and has no secret in it. */
const isPublic = !isServed && location.protocol.startsWith("http") && !LOCAL.test(location.hostname);
const PRIVATE = "Only you can open this page: save it as a file, or put this text after the address of a public copy.";
/** The number of characters above which some programs truncate an address. */
const MAX_LINK_LENGTH = 8000;

/**
 * Returns the text of the fight that is shown, with its edits, its turn and the pinned cell.
 * @param {Session} session
 */
export function shared(session) {
  const { fight, opened, turn, pinned } = session;
  if (!fight || !opened) throw new Error("no battle is open");
  return pack({ fight: { ...fight, edits: opened.edits }, turn, pinned });
}

/**
 * Returns the code that shows the battle in another page.
 * @param {string} address
 * @param {string} title
 */
function embedCode(address, title) {
  const named = title.replace(/[&<>"]/g, (letter) => `&#${letter.charCodeAt(0)};`);
  return `<iframe src="${address}" title="${named}" width="640" height="520" style="border:0" loading="lazy"></iframe>`;
}

/**
 * Copies a text, which stays selected in the field if the browser does not allow copying.
 * @param {string} text
 */
async function copy(text) {
  const field = typed("link", HTMLInputElement);
  const note = element("link-note");
  field.value = text;
  field.select();
  try {
    await navigator.clipboard.writeText(text);
    note.textContent = "Copied.";
  } catch {
    note.textContent = "The browser does not allow copying. The text is selected; press Ctrl-C.";
  }
}

/** @param {Session} session */
export function listenToShare(session) {
  const note = (/** @type {string} */ text) => (element("link-note").textContent = text);
  const title = () => session.known.names.join(" against ");
  const file = () => `${session.known.names.join("-").replace(/[^\w-]+/g, "_") || "battle"}.html`;
  onClick("share", async () => {
    session.stop();
    // The link leads to the turn at which the battle stops.
    await session.go(session.wanted);
    const link = `${isPublic ? location.href.split("#")[0] : ""}#f=${await shared(session)}`;
    const field = typed("link", HTMLInputElement);
    field.value = link;
    const isLong = link.length > MAX_LINK_LENGTH;
    const size = `${number(link.length)} characters`;
    const long = isLong ? `The link has ${size}; some programs truncate it. A page has no limit.` : "";
    note(isPublic ? long : PRIVATE);
    element("page").classList.toggle("main", !isPublic);
    element("copy").classList.toggle("main", isPublic);
    typed("sharing", HTMLDialogElement).showModal();
    field.select();
  });
  onClick("copy", () => copy(typed("link", HTMLInputElement).value));
  onClick("copy-embed", async () => {
    // If others cannot open this page, they can show the page in one file, which contains the fight.
    const address = isPublic ? `${location.href.split("#")[0]}#embed&f=${await shared(session)}` : `${file()}#embed`;
    await copy(embedCode(address, title()));
  });
  onClick("page", async () => {
    try {
      download(file(), await pageWith(await shared(session)), "text/html");
    } catch (error) {
      note(`The page cannot be saved: ${/** @type {Error} */ (error).message}`);
    }
  });
}
