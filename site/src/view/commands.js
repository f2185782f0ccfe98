/** The debugger's line: commands over the battle that is shown, as `corewar debug` has them. */
import TABLE from "../../../python/corewar/debugger/commands.json";
import { ACTS } from "./acts.js";
import { CommandError } from "./arguments.js";

/** @typedef {import("./session.js").Session} Session */
/**
 * A command of the table; `site` is its summary on the page if that differs, or null if the page lacks the command.
 * @typedef {{usage: string, short: string[], summary: string, repeats?: boolean, site?: string | null}} Command
 */

const { cells, warriors, more } = TABLE.conditions;
const WORDS = [...cells, ...warriors, ...more, "and"];
const PASTING = "Tab completes commands, labels and names. Pasted lines are executed one after another.";

/** The commands that the page has. */
const COMMANDS = /** @type {Command[]} */ (TABLE.commands).filter(({ site }) => site !== null);

/**
 * Returns the usage of a command, or of all commands if `rest` is "", as the terminal shows it.
 * @param {string} rest
 */
function help(rest) {
  const commands = rest ? [commandOf(rest)] : COMMANDS;
  const lines = commands.map(({ usage, short, summary, site = summary }) => {
    return `${usage.padEnd(29)}${site}${short.length ? ` (${short.join(", ")})` : ""}`;
  });
  const hasConditions = commands.some(({ usage }) => usage.includes("CONDITION"));
  return [...lines, ...(hasConditions ? TABLE.arguments : []), ...(rest ? [] : [PASTING])];
}

/** @param {Command} command */
const nameOf = ({ usage }) => usage.split(" ")[0];

/**
 * Returns the commands that a word can mean.
 * @param {string} word
 */
function commandsOf(word) {
  const exact = COMMANDS.filter((one) => nameOf(one) === word || one.short.includes(word));
  return exact.length ? exact : COMMANDS.filter((one) => nameOf(one).startsWith(word));
}

/**
 * Returns the command that a word means. Throws CommandError.
 * @param {string} word
 */
function commandOf(word) {
  const found = commandsOf(word);
  if (found.length > 1) throw new CommandError(`\`${word}\` can mean ${found.map(nameOf).join(", ")}`);
  if (!found.length) throw new CommandError(`unknown command \`${word}\`; \`help\` lists all commands`);
  return found[0];
}

/**
 * Executes a line and returns what to show. Throws CommandError.
 * @param {Session} session
 * @param {string} line
 * @param {(progress: string) => void} tell shows how far the command is
 */
export async function execute(session, line, tell) {
  const [word, ...rest] = line.trim().split(/\s+/);
  const name = nameOf(commandOf(word));
  return name === "help" ? help(rest.join(" ")) : ACTS[name](session, rest.join(" "), tell);
}

/**
 * Returns whether an empty line after this one repeats it.
 * @param {string} line
 */
export const repeats = (line) => commandsOf(line.trim().split(/\s+/)[0])[0]?.repeats ?? false;

/**
 * Returns what the last word of a line can be completed to: commands, conditions, labels and names of warriors.
 * @param {Session} session
 * @param {string} line
 */
export function completions({ known }, line) {
  const [command, ...rest] = line.trimStart().split(/\s+/);
  const last = (rest.at(-1) ?? command).toLowerCase();
  const takesCondition = rest.length > 0 && commandsOf(command).some(({ usage }) => usage.includes("CONDITION"));
  const words = [...(takesCondition ? WORDS : []), ...known.addresses.keys(), ...known.names];
  const all = rest.length ? words : COMMANDS.map(nameOf);
  return [...new Set(all)].filter((one) => one.toLowerCase().startsWith(last));
}
