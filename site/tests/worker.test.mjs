// Tests what workers do: the desk, which has the battle that is shown, also in words; and jobs.
//
//     MARS_WASM=build/mars.wasm node --test site/tests/
import assert from "node:assert/strict";
import fs from "node:fs";
import { test } from "node:test";

import { Mars } from "../src/engine/mars.js";
import { DEFAULTS, MAX_TURNS } from "../src/model/settings.js";
import { eventWords, fateWords, moveWords, writtenWords } from "../src/words/battle.js";
import { Desk } from "../src/worker/desk.js";
import { Jobs } from "../src/worker/jobs.js";

const mars = await Mars.load(fs.readFileSync(process.env.MARS_WASM));

/** Returns a fight of some sources, with edits. */
function fightOf(texts, edits = []) {
  const warriors = texts.map((text, index) => ({ name: `${index}.red`, text }));
  return { settings: DEFAULTS, seed: 1, rounds: 1, round: 0, position: 0, formula: "", warriors, edits };
}

/** Returns what moveWords has to know of a battle without labels. */
const known = (names) => ({ names, core: 8000, end: 100, deaths: [], addresses: new Map(), labels: new Map() });

test("a fight that cannot be opened leaves the battle that is open", () => {
  const desk = new Desk(mars);
  desk.open(fightOf(["MOV 0, 1\n"]));
  const before = desk.turn(0, 100);
  const wrong = [
    fightOf(["JMP 0\n", "FOO 1\n"]),
    fightOf(["JMP 0\n"], [{ turn: 0, edit: { kind: "kill", warrior: 5, place: 0 } }]),
    fightOf(["DAT 0\n"], [{ turn: 7, edit: { kind: "add", warrior: 0, address: 0 } }]),
    { ...fightOf(["JMP 0\n"]), settings: { ...DEFAULTS, cycles: MAX_TURNS + 1 } },
  ];
  for (const fight of wrong) {
    assert.throws(() => desk.open(fight));
    assert.deepEqual(desk.turn(0, 100), before);
  }
});

test("a score formula is checked", () => {
  const jobs = new Jobs(mars);
  for (const formula of ["W", "(W*W-1)/S", "1/(S-1)"]) jobs.checkFormula(formula);
  for (const formula of ["", "W/", "X"]) assert.throws(() => jobs.checkFormula(formula), /1 |Syntax|formula|FORMULA/);
});

/** Returns the text of an example. */
const example = (name) => fs.readFileSync(new URL(`../../examples/${name}.red`, import.meta.url), "utf8");

test("a death has a chain of turns", () => {
  const desk = new Desk(mars);
  desk.open(fightOf([example("dwarf"), example("imp")]));
  const turnOf = ({ kind, turn, warrior, address, target }) => [kind, turn, warrior, address, target];
  assert.deepEqual(desk.why(0, 1).map(turnOf), [
    ["aim", 7795, 0, 0, 3],
    ["arrival", 7796, 1, 5202, 5203],
    ["write", 7797, 0, 1, 5203],
    ["death", 7798, 1, 5203, 5203],
  ]);
  assert.deepEqual(desk.why(0, 0), []);
  // The instruction that led Lookout to its death is Dusk's.
  desk.open({ ...fightOf([example("scanner"), example("vampire")]), rounds: 100 });
  assert.deepEqual(desk.why(0, 0).map(({ kind, warrior }) => [kind, warrior]), [
    ["aim", 1],
    ["write", 1],
    ["arrival", 0],
    ["death", 0],
  ]);
});

test("a chain has the bomb on an equal opcode, and what changed a number of it", () => {
  const desk = new Desk(mars);
  const bomber = "MOV 2, 60\nJMP 0\nDAT #1, #1\n";
  const { deaths } = desk.open({ ...fightOf([bomber, "SUB #1, -40\nJMP -41\n"]), position: 100 });
  const words = eventWords(deaths[0], known(["Bomber", "Victim"]));
  assert.equal(words, "Victim dies at 60, a cell that it changed itself in turn 2");
  assert.deepEqual(desk.why(0, 1).map(({ kind, turn, warrior }) => [kind, turn, warrior]), [
    ["write", 1, 0],
    ["change", 2, 1],
    ["arrival", 4, 1],
    ["death", 6, 1],
  ]);
  assert.deepEqual([desk.copied(0, 60, 5), desk.copied(0, 61, 5)], [1, 0]);
  // A copy before an edit of the cell does not count.
  const { future } = desk.edit(0, 3, { kind: "cell", address: 60, last: 60, cell: desk.cellOf("DAT 7") });
  assert.equal(desk.copied(future, 60, 5), 0);
});

test("a story is read part by part", () => {
  const desk = new Desk(mars);
  const { events, deaths, end } = desk.open(fightOf([example("dwarf"), example("imp")]));
  const kinds = (all) => all.map(({ kind, turn, warrior, address }) => [kind, turn, warrior, address]);
  const known = [["start", 0, -1, -1], ["death", 7798, 1, 5203], ["end", 7798, -1, -1]];
  assert.deepEqual([kinds(events), kinds(deaths), end], [known, [["death", 7798, 1, 5203]], 7798]);
  desk.open(fightOf([example("silk"), example("paper")]));
  let [story, parts] = [null, 0];
  for (; !story; parts++) story = desk.story(0);
  assert.ok(parts > 5);
  const first = [["split", 1, 0, 0], ["split", 2, 1, 1305], ["hit", 632, 1, 3630], ["hit", 711, 0, 3629]];
  const rest = [["most", 30058, 1, -1], ["most", 74375, 0, -1], ["end", 160000, -1, -1]];
  assert.deepEqual(kinds(story), [["start", 0, -1, -1], ...first, ...rest]);
});

test("hits are the places that searches find", () => {
  const desk = new Desk(mars);
  desk.open(fightOf([example("dwarf"), example("imp")]));
  const conditions = [{ word: "at", cells: [5203, 5203] }, { word: "changes", cells: [103, 103] }, { word: "dies" }];
  const hits = desk.hits(0, conditions, 100);
  const found = [];
  for (let turn = 0; turn !== null; ) {
    const next = desk.search(0, conditions, turn, true);
    if (next) found.push(next.turn);
    turn = next?.turn ?? null;
  }
  assert.deepEqual(hits, found);
  assert.ok(hits.length >= 3);
  assert.deepEqual(desk.hits(0, conditions, 2), found.slice(0, 2));
});

/** Paints a whole picture. Returns a function of a column and a row: the owner there, and how bright it is. */
function painted(desk, frame, future = 0) {
  const [owner, light] = [[], []];
  for (let from = 0; from < frame.columns; from = owner.length / frame.rows) {
    const piece = desk.paint(future, frame, from);
    owner.push(...piece.owner);
    light.push(...piece.light);
  }
  const at = (column, row) => column * frame.rows + row;
  return (column, row) => ({ owner: owner[at(column, row)], light: light[at(column, row)] });
}

test("a picture shows where warriors were", () => {
  const desk = new Desk(mars);
  const { end } = desk.open({ ...fightOf([example("imp"), "JMP 0\n"]), position: 7000 });
  const frame = { first: 0, last: 8000, columns: 80, rows: 80 };
  const at = painted(desk, frame);
  for (const column of [10, 40, 79]) {
    // A column is 100 turns, in which the imp makes 50 steps, and a row is 100 cells.
    const row = Math.floor((50 * (column + 1) - 1) / 100);
    assert.equal(at(column, row).owner, 0);
    assert.equal(at(column, row + 3).owner === 0, false);
    assert.ok(at(column, row).light > at(column, Math.max(0, row - 8)).light || row < 8);
  }
  assert.ok(end > 8000);
  // After an edit the battle is another one.
  const cell = { op: 0, modifier: 4, aMode: 1, bMode: 1, a: 5, b: 5 };
  desk.edit(0, 4000, { kind: "cell", address: 7500, last: 7899, cell });
  const edited = painted(desk, frame, 1);
  assert.deepEqual([edited(38, 77).owner, edited(45, 77).owner, edited(45, 22).owner], [255, 254, 0]);
});

test("a line of source has the numbers of the match", () => {
  const desk = new Desk(mars);
  desk.open({ ...fightOf(["JMP 0\n", "JMP 0\n", "JMP 0\n"]), rounds: 7 });
  const { a, b } = desk.cellOf("DAT #ROUNDS, #WARRIORS");
  assert.deepEqual([a, b], [7, 3]);
  assert.throws(() => desk.cellOf("DAT 0\nDAT 0"), /one instruction/);
});

test("a turn in words names all cells that it read", () => {
  const desk = new Desk(mars);
  desk.open(fightOf(["SEQ *10, @20\n"]));
  const move = desk.move(0, 1);
  assert.deepEqual(move.reads, [10, 20]);
  assert.match(moveWords({ ...move, reads: [1, 2, 3, 4, 5, 6] }, known(["Lace"])), /cells 1, 2, 3, 4, 5 and 6\./);
});

test("a cell that is edited at the start is not loaded", () => {
  const desk = new Desk(mars);
  desk.open(fightOf(["JMP 0\n"]));
  const { future } = desk.edit(0, 0, { kind: "cell", address: 5, last: 5, cell: desk.cellOf("NOP 0") });
  const { owner, written } = desk.turn(future, 1);
  const words = [0, 5, 6].map((address) => writtenWords(owner[address], written[address], known(["Lace"])));
  assert.deepEqual(words, ["Loaded with Lace", "Edited after turn 0", "Never written"]);
  assert.equal(writtenWords(0, 7, known(["Lace"])), "Written by Lace in turn 7");
});

test("the next change of a cell may be an edit", () => {
  const desk = new Desk(mars);
  desk.open(fightOf(["JMP 0\n"]));
  const { future } = desk.edit(0, 7, { kind: "cell", address: 5, last: 5, cell: desk.cellOf("NOP 0") });
  assert.deepEqual([0, 6, 7].map((turn) => desk.cell(future, 5, turn).next), [7, 7, null]);
});

test("the winner is found by who lives, whatever it is called", () => {
  const names = ["A tie", "Imp"];
  assert.equal(fateWords({ ...known(names), deaths: [{ warrior: 1 }] }), "wins");
  assert.equal(fateWords(known(names)), "ties");
  assert.equal(fateWords(known(["A tie"])), "survives");
});

test("processes come from births, also over edits", () => {
  const desk = new Desk(mars);
  const settings = { ...DEFAULTS, core: 80, processes: 80, cycles: 800, longest: 10, distance: 10 };
  const paper = "SPL 1, 0\nSPL @0, <9\nMOV }-1, >-1\nMOV }-2, >-2\nJMP -3, 0\n";
  desk.open({ ...fightOf([paper, "JMP 0\n"]), settings });
  const loaded = { births: [13, 5, 1], added: null };
  assert.deepEqual([desk.born(0, 0, 0, 0), desk.born(0, 20, 0, 2)], [{ births: [], added: null }, loaded]);
  let future = 0;
  const edit = (made) => {
    future = desk.edit(future, 20, { warrior: 0, ...made }).future;
  };
  edit({ kind: "kill", place: 1 });
  assert.deepEqual([0, 1].map((place) => desk.born(future, 20, 0, place)), [{ births: [1], added: null }, loaded]);
  edit({ kind: "move", place: 1, address: 33 });
  assert.deepEqual(desk.born(future, 20, 0, 1), loaded);
  edit({ kind: "add", address: 10 });
  assert.deepEqual(desk.born(future, 20, 0, 6), { births: [], added: 20 });
  // Of the other warrior no process was killed or added.
  assert.deepEqual([20, 33].map((turn) => desk.born(future, turn, 1, 0)), Array(2).fill({ births: [], added: null }));
  assert.deepEqual([6, 7].map((place) => desk.born(future, 33, 0, place).births), [[], [33]]);
  assert.deepEqual(desk.born(future, 33, 0, 7), { births: [33], added: 20 });
  for (const [warrior, place] of [[0, 8], [1, 1], [2, 0]]) {
    assert.throws(() => desk.born(future, 33, warrior, place), { message: "process" });
  }
});

test("a score has the values of its formula, also of outcomes that do not occur", () => {
  const jobs = new Jobs(mars);
  const [lives, dies] = ["JMP 0\n", "DAT 0\n"].map((text) => mars.assemble(text));
  const scores = (formula, own, other) => jobs.scores([own, other], { rounds: 3, formula });
  assert.deepEqual(scores("10*W/S", lives, dies).values, [0, 20, 10]);
  assert.deepEqual(scores("10*W/S", dies, lives).values, [0, 20, 10]);
  const { points, wins, values } = scores("6/(2-S)", lives, dies);
  assert.deepEqual([points, wins, values], [18, 3, [0, 6, 0]]);
  assert.throws(() => scores("6/(2-S)", lives, lives), /SCORE|score/i);
});
