// Says what each cell on standard input does, for a test that compares JavaScript's sentences with Python's. esbuild
// bundles it first, since it imports the words as JSON.
//
//     node sentences.js 8000 <cells.txt
import fs from "node:fs";

import { parseCell } from "../src/model/cells.js";
import { instructionWords } from "../src/words/instruction.js";

const core = Number(process.argv[2]);
const cells = fs.readFileSync(0, "utf8").trim().split("\n");
for (const cell of cells) console.log(instructionWords(parseCell(cell, core), { core }));
