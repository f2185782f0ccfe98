// Prints the nanoseconds of CPU time per turn of a match of two warriors in which none dies, by mars.wasm. The match
// has 20 rounds and is run three times, of which the fastest counts.
//
//     node wasm.mjs MARS.WASM FILE FILE
import fs from "node:fs";

import { Mars } from "../../../site/src/engine/mars.js";

const OPTIONS = { rounds: 20, position: 4000 };
const TURNS = 160_000;

const [library, ...files] = process.argv.slice(2);
const mars = await Mars.load(fs.readFileSync(library));
const warriors = files.map((file) => mars.assemble(fs.readFileSync(file)));
if (mars.match(warriors, OPTIONS).some(({ ties }) => ties !== OPTIONS.rounds)) {
  throw new Error("a warrior dies, so the number of turns is unknown");
}
const times = Array.from({ length: 3 }, () => {
  const begin = process.cpuUsage();
  mars.match(warriors, OPTIONS);
  return 1000 * process.cpuUsage(begin).user;
});
console.log(Math.min(...times) / (OPTIONS.rounds * TURNS));
