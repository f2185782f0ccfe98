// Executes turns in mars.wasm: each line of the input has the words of a battle, with its capacity, and the numbers of turns, of records
// and of lists of touched cells. Each line of the output has the words after the turns, the records, and the lists of touched cells.
//
//     node dev/checks/comparing/wasm.mjs build/mars.wasm
import fs from "node:fs";
import readline from "node:readline";

import { Battle } from "../../../site/src/engine/battle.js";
import { Mars } from "../../../site/src/engine/mars.js";

const mars = await Mars.load(fs.readFileSync(process.argv[2]));
for await (const line of readline.createInterface({ input: process.stdin })) {
  const [words, turns, records, touched] = JSON.parse(line);
  const battle = new Battle(Uint32Array.from(words));
  const rows = mars.play(battle, turns, { records, touched });
  console.log(JSON.stringify([battle.words, rows.records, rows.touched].map((list) => Array.from(list))));
}
