// Explains the errors of sources, for a test that compares it with `corewar explain`: sources as JSON on standard
// input, the line and the text of each error on standard output.
//
//     node site/tests/errors.mjs build/mars.wasm python/corewar/explain/meanings.json <sources.json
import fs from "node:fs";

import { Mars, MarsError } from "../src/engine/mars.js";
import { DEFAULTS } from "../src/model/settings.js";
import { errorsOf } from "../src/words/errors.js";

const [wasm, file] = process.argv.slice(2);
const mars = await Mars.load(fs.readFileSync(wasm));
const { expressions, errors, causes } = JSON.parse(fs.readFileSync(file, "utf8"));
const meanings = { ...expressions, ...errors, ...causes };

/** Returns the first error of a source, or null. */
async function assemble(text) {
  try {
    mars.assemble(text, { settings: DEFAULTS, warriors: 2, rounds: 1 });
    return null;
  } catch (error) {
    if (!(error instanceof MarsError)) throw error;
    return error;
  }
}

const answers = [];
for (const text of JSON.parse(fs.readFileSync(0, "utf8"))) {
  const found = await errorsOf(text, meanings, assemble);
  answers.push(found.map((error) => [error.line, error.text]));
}
console.log(JSON.stringify(answers));
