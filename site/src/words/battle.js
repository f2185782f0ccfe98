/** Turns, events and outcomes in plain English. */
import { BY_HAND, NOBODY, cellText, readCell } from "../model/cells.js";

/** @typedef {import("../battle/story.js").Event} Event */
/**
 * What sentences about a battle need: names in the order of turns, addresses of labels, and labels of addresses.
 * @typedef {{names: string[], core: number, end: number, deaths: Event[], addresses: Map<string, number>,
 *   labels: Map<number, string>}} Known
 */
/** @typedef {{address: number, name: string, warrior: number}} Label */
/**
 * What a turn did. Cells are three words; `origin` is the index of the loaded cell of which the instruction is a copy,
 * `owner` the owner of a cell before the turn, and `left` the number of processes that the warrior has left.
 * @typedef {object} Move
 * @property {number} turn
 * @property {number} warrior
 * @property {number} address
 * @property {Uint32Array} executed
 * @property {number} origin
 * @property {{address: number, before: Uint32Array, after: Uint32Array, owner: number}[]} writes
 * @property {number[]} reads
 * @property {number[]} queued
 * @property {boolean} died
 * @property {number} left
 */

/**
 * Returns a number as the page shows it, with separators.
 * @param {number} value
 */
export const number = (value) => value.toLocaleString("en");

/**
 * Returns a number with a noun.
 * @param {number} value
 * @param {string} what the noun in the singular
 */
export function pluralize(value, what) {
  const ending = /(s|ch)$/.test(what) ? "es" : "s";
  return `${number(value)} ${what}${value === 1 ? "" : ending}`;
}

/** @param {{wins: number, ties: number, losses: number}} counts */
export const countWords = ({ wins, ties, losses }) =>
  `${pluralize(wins, "win")}, ${pluralize(ties, "tie")}, ${pluralize(losses, "loss")}`;

/** @param {string[]} names */
export const joinNames = (names) =>
  names.length > 1 ? `${names.slice(0, -1).join(", ")} and ${names[names.length - 1]}` : (names[0] ?? "");

/**
 * Returns distinct names: equal ones are followed by numbers.
 * @param {string[]} names
 */
export function distinct(names) {
  /** @type {string[]} */
  const result = [];
  for (const name of names) {
    let found = name;
    const isShared = names.indexOf(name) !== names.lastIndexOf(name);
    for (let count = 1; isShared && [...names, ...result].includes(found); count++) found = `${name} ${count}`;
    result.push(found);
  }
  return result;
}

/**
 * Returns the addresses of labels by name: `1.bomb` for a label of warrior 1, and `bomb` if only one warrior has it.
 * @param {Label[]} labels
 */
export function addressesOf(labels) {
  /** @type {Map<string, number>} */
  const owners = new Map();
  for (const { name, warrior } of labels) owners.set(name, (owners.get(name) ?? warrior) === warrior ? warrior : -1);
  const own = labels.filter(({ name }) => owners.get(name) !== -1);
  const all = labels.map(({ warrior, name, address }) => ({ name: `${warrior}.${name}`, address }));
  return new Map([...own, ...all].map(({ name, address }) => [name, address]));
}

/**
 * Returns why a name is not an address if several warriors have it as a label, otherwise "".
 * @param {string} name
 * @param {Known} known
 */
export function sharedWords(name, { addresses }) {
  const labels = [...addresses.keys()].filter((label) => label.split(".")[1] === name);
  return labels.length > 1 ? `\`${name}\` is a label of several warriors; use ${labels.join(" or ")}` : "";
}

/**
 * Returns an address, with its label if it has one.
 * @param {number} address
 * @param {Known} known
 */
export const place = (address, { labels }) =>
  labels.has(address) ? `${number(address)} (${labels.get(address)})` : number(address);

/**
 * Returns an address, with its label if it has one, as the debugger's line writes it.
 * @param {number} address
 * @param {Known} known
 */
export const where = (address, { labels }) =>
  labels.has(address) ? `${address} (${labels.get(address)})` : String(address);

/**
 * Returns the name of the owner of a cell.
 * @param {number} owner
 * @param {Known} known
 */
const ownerName = (owner, { names }) => names[owner] ?? "no warrior";

/**
 * Returns who wrote a cell last, and when. An edit is made after a turn, also after turn 0.
 * @param {number} owner
 * @param {number} turn
 * @param {Known} known
 */
export function writtenWords(owner, turn, known) {
  if (owner === BY_HAND) return `Edited after turn ${number(turn)}`;
  if (turn) return `Written by ${ownerName(owner, known)} in turn ${number(turn)}`;
  return owner === NOBODY ? "Never written" : `Loaded with ${ownerName(owner, known)}`;
}

/**
 * Returns who won.
 * @param {Known} known
 */
export function outcome({ names, deaths }) {
  const dead = new Set(deaths.map(({ warrior }) => warrior));
  const living = names.filter((_, who) => !dead.has(who));
  if (living.length === 0) return "No warrior survives";
  if (living.length === 1) return `${living[0]} ${names.length > 1 ? "wins" : "survives"}`;
  return living.length === 2 && names.length === 2 ? "A tie: both survive" : `A tie between ${joinNames(living)}`;
}

/**
 * Returns how the battle ends for a warrior that survives.
 * @param {Known} known
 */
export function fateWords({ names, deaths }) {
  if (names.length === 1) return "survives";
  return names.length - deaths.length === 1 ? "wins" : "ties";
}

/**
 * Returns a turn in some sentences.
 * @param {Move} move
 * @param {Known} known
 */
export function moveWords(move, known) {
  const { core } = known;
  const name = known.names[move.warrior];
  const executed = cellText(readCell(move.executed, 0), core);
  const sentences = [`${name} executed ${executed} at ${place(move.address, known)}.`];
  for (const write of move.writes) sentences.push(writeWords(write, move.warrior, known));
  if (move.reads.length) {
    const cells = move.reads.map((address) => place(address, known));
    sentences.push(`It read cell${cells.length > 1 ? "s" : ""} ${joinNames(cells)}.`);
  }
  sentences.push(endWords(move, known));
  return sentences.filter(Boolean).join(" ");
}

/**
 * @param {Move["writes"][0]} write
 * @param {number} warrior
 * @param {Known} known
 */
function writeWords({ address, before, after, owner }, warrior, known) {
  const text = (/** @type {Uint32Array} */ words) => cellText(readCell(words, 0), known.core);
  const isSame = before.every((word, index) => word === after[index]);
  let rest = "";
  if (isSame) rest = ", which changed nothing";
  else if (owner < known.names.length && owner !== warrior) {
    rest = `, replacing ${known.names[owner]}’s ${text(before)}`;
  }
  return `It wrote ${text(after)} to ${place(address, known)}${rest}.`;
}

/**
 * @param {Move} move
 * @param {Known} known
 */
function endWords({ warrior, address, queued, died, left }, known) {
  if (died) return `That was its last process: ${known.names[warrior]} is dead.`;
  if (queued.length === 0) return `That process ended; ${number(left)} left.`;
  const cells = queued.map((one) => place(one, known));
  if (queued.length === 2) return `It split: processes continue at ${joinNames(cells)}.`;
  return queued[0] === (address + 1) % known.core ? "" : `It continues at ${cells[0]}.`;
}

/**
 * Returns an event as a line of the battle's story.
 * @param {Event} event
 * @param {Known} known
 */
export function eventWords(event, known) {
  const { names } = known;
  const name = names[event.warrior] ?? "";
  switch (event.kind) {
    case "start": {
      const who = names.length > 4 ? `${names.length} warriors` : joinNames(names);
      return `${who} ${names.length > 1 ? "are" : "is"} loaded into the core`;
    }
    case "split":
      return `${name} splits for the first time, into two processes`;
    case "hit":
      return `${name} overwrites a cell of ${names[event.other]}`;
    case "most":
      return `${name} peaks at ${number(event.count)} processes`;
    case "edit":
      return event.address < 0 ? "You remove a process" : `You make an edit at cell ${place(event.address, known)}`;
    case "death":
      return deathWords(event, known);
    default:
      return `${outcome(known)} after ${pluralize(event.turn, "turn")}`;
  }
}

/**
 * @param {Event} event
 * @param {Known} known
 */
function deathWords({ warrior, other, address, count }, known) {
  const name = known.names[warrior];
  if (address < 0) return `${name} dies: you removed its last process`;
  const [at, when] = [place(address, known), count ? ` in turn ${number(count)}` : ""];
  const own = count ? `it changed itself${when}` : "was loaded with it";
  if (other === warrior) return `${name} dies at ${at}, a cell that ${own}`;
  if (other === BY_HAND) return `${name} dies at ${at}, which you wrote`;
  const killer = known.names[other];
  if (killer === undefined) return `${name} dies: it runs into empty memory at ${at}`;
  return `${name} dies: it executes ${at}, which ${count ? `${killer} changed${when}` : `was loaded with ${killer}`}`;
}

/**
 * Returns how many processes and cells each warrior has.
 * @param {string[]} names
 * @param {{processes: number[], owned: number[]}} view
 */
export const standingWords = (names, { processes, owned }) =>
  names.map((name, who) => `${name}: ${pluralize(processes[who], "process")}, ${pluralize(owned[who], "cell")}`);

/**
 * Returns the sentence that a newcomer reads while the battle plays. `cells` and `processes` are counts by warrior.
 * @param {number} turn
 * @param {Event[]} events
 * @param {Known} known
 * @param {{processes: number[], cells: number[]}} counts
 */
export function captionWords(turn, events, known, { processes, cells }) {
  const { names, end, core } = known;
  // An event is the caption for a twelfth of the battle. Without events, the caption first says what Core War is.
  if (turn >= end) return `${eventWords(events[events.length - 1], known)}.`;
  const isRecent = (/** @type {Event} */ event) => event.turn <= turn && event.turn > 0 && turn - event.turn < end / 12;
  const latest = [...events].reverse().find(isRecent);
  if (latest) return `${eventWords(latest, known)}.`;
  if (turn < end / 10) {
    if (names.length === 1) return `${names[0]} has the core to itself.`;
    const others = names.length > 2 ? "others" : "other";
    return `${joinNames(names)} share a ring of ${number(core)} cells, and each tries to kill the ${others}.`;
  }
  const [leader, many] = [cells, processes].map((counts) => counts.indexOf(Math.max(...counts)));
  const share = `${names[leader]} owns ${Math.round((100 * cells[leader]) / core)}% of the core`;
  if (processes[many] <= 2) return `${share}.`;
  const runs = `runs ${number(processes[many])} processes`;
  return leader === many ? `${share} and ${runs}.` : `${share}; ${names[many]} ${runs}.`;
}
