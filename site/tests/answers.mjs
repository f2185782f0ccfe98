// Answers questions about battles, for tests that compare JavaScript's history with Python's: fights as JSON on
// standard input, answers as JSON on standard output.
//
//     node site/tests/answers.mjs build/mars.wasm <fights.json
import fs from "node:fs";

import { MarsError, Mars } from "../src/engine/mars.js";
import { parseEdit } from "../src/model/fight.js";
import { Desk } from "../src/worker/desk.js";

const mars = await Mars.load(fs.readFileSync(process.argv[2]));

/** Opens a fight and makes its edits; leaves out the impossible ones. */
function open(desk, { edits, ...fight }) {
  let opened = desk.open({ ...fight, rounds: fight.round + 1, position: 0, formula: "", edits: [] });
  for (const { turn, text } of edits) {
    try {
      opened = desk.edit(opened.future, Math.min(turn, opened.end), parseEdit(text, fight.settings.core));
    } catch (error) {
      if (!(error instanceof MarsError)) throw error;
    }
  }
  return opened;
}

/** Returns the battle of a fight after the given turns, what each question finds, and the overview of the battle. */
function answer({ turns, questions, ...fight }) {
  const desk = new Desk(mars);
  const { future, end, deaths, lines } = open(desk, fight);
  const states = turns.map((given) => {
    const turn = Math.min(given, end);
    const { owner, written, head, cycle, queues, processes } = desk.turn(future, turn);
    const edited = [...owner.keys()].map((address) => desk.cell(future, address, turn).edited?.turn ?? null);
    const own = [...desk.origins(future, turn)].map((origin) => lines[origin]?.line ?? 0);
    const born = processes.flatMap((count, warrior) => {
      return Array.from({ length: count }, (_, place) => desk.born(future, turn, warrior, place));
    });
    const shown = { owner: [...owner], written: [...written], edited, lines: own, queues: [...queues], born };
    return { turn, head, cycle, ...shown };
  });
  const found = questions.map(({ condition, turn, forward }) =>
    desk.search(future, [condition], Math.min(turn, end), forward),
  );
  const dead = deaths.map(({ turn, warrior }) => [warrior, turn]);
  const { turns: moments, cells, processes } = desk.overview(future, 0, end);
  return { end, states, found: found.map((one) => one?.turn ?? null), dead, moments, cells, processes };
}

console.log(JSON.stringify(JSON.parse(fs.readFileSync(0, "utf8")).map(answer)));
