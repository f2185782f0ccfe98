// Reads the lessons of site/lessons: a head, paragraphs, and sources.
//
// The lines of the head are `title`, `judge` (src/app/lessons.js explains each), `opponents` (names of examples),
// `goal` (`wins`, `survives` and `cells`, each with a number) and `hint`. `--- start` is followed by the source that
// the learner begins with, `--- NAME.red` by an opponent that is not an example.

const KEYS = ["title", "judge", "opponents", "goal", "hint"];
const JUDGES = ["end", "death", "saved", "match"];
const GOALS = ["wins", "survives", "cells"];

/** Returns the numbers of a goal by their names, such as `wins`. */
function goalOf(text) {
  const words = text.split(/\s+/).filter(Boolean);
  const entries = words.flatMap((word, at) => (at % 2 ? [] : [[word, Number(words[at + 1])]]));
  const isWrong = entries.some(([name, value]) => !GOALS.includes(name) || !(value >= 0));
  if (isWrong) throw new Error(`the goal \`${text}\` is wrong`);
  return Object.fromEntries(entries);
}

/** Returns the lesson of a file, given the file's name and text. Throws an Error if the head is wrong. */
export function readLesson(name, text) {
  const [front, ...parts] = text.split(/^--- (.*)\n/m);
  const [head, ...paragraphs] = front.trim().split(/\n{2,}/);
  const fields = Object.fromEntries(head.split("\n").map((line) => /^(\w+): (.*)$/.exec(line)?.slice(1) ?? [line, ""]));
  const unknown = Object.keys(fields).find((key) => !KEYS.includes(key));
  const isWhole = !unknown && JUDGES.includes(fields.judge) && fields.title;
  if (!isWhole) throw new Error(`${name}: the head is wrong: ${unknown ?? ""}`);
  const sources = parts.flatMap((part, at) => (at % 2 ? [] : { name: part, text: parts[at + 1] }));
  return {
    id: name.replace(/^\d+-|\.txt$/g, ""),
    title: fields.title,
    text: paragraphs.map((paragraph) => paragraph.replaceAll("\n", " ")),
    hint: fields.hint ?? "",
    judge: fields.judge,
    goal: goalOf(fields.goal ?? ""),
    opponents: (fields.opponents ?? "").split(" ").filter(Boolean),
    sources: sources.filter((source) => source.name !== "start"),
    start: sources.find((source) => source.name === "start")?.text ?? "",
  };
}
