// Shows that each lesson can be passed, that the source that a lesson begins with does not pass, and that wrong lessons
// are rejected.
//
//     MARS_WASM=build/mars.wasm node --test site/tests/
import assert from "node:assert/strict";
import fs from "node:fs";
import { test } from "node:test";

import { Mars } from "../src/engine/mars.js";
import { describe } from "../src/engine/warrior.js";
import { DEFAULTS } from "../src/model/settings.js";
import { Desk } from "../src/worker/desk.js";
import { readLesson } from "../tools/lesson.mjs";

const LESSONS = new URL("../lessons/", import.meta.url);
const EXAMPLES = new URL("../../examples/", import.meta.url);
const mars = await Mars.load(fs.readFileSync(process.env.MARS_WASM));
const example = (name) => fs.readFileSync(new URL(name, EXAMPLES), "utf8");
const stone = (step) => `start ADD #${step}, bomb\n MOV bomb, @bomb\n JMP start\nbomb DAT #0, #0\n END start\n`;

const SCISSORS = `        ORG     scan
clear   DAT     #0, #42
scan    ADD     #2980, look
look    JMZ.F   scan, 6197
        MOV.B   look, carpet
        ADD     #7, carpet
wipe    MOV     stun, <carpet
        DJN     wipe, #23
        MOV     #23, wipe+1
        DJN     scan, #19
        SPL     #0, 0
        MOV     kill, >clear
        DJN.F   -1, >clear
        DAT     0, 0
carpet  DAT     #0, #0
stun    SPL     #0, 42
kill    DAT     <2410, #42
`;
const PAPER = `start   SPL     1
        SPL     1
        SPL     @0, 1234
        MOV     }-1, >-1
        SPL     @0, 3740
        MOV     }-1, >-1
        END     start
`;
const SCANNER = `start   ADD     bomb, look
look    SNE     100, 4100
        JMP     start
        SUB     bomb, look
clear   MOV     bomb, >look
        MOV     bomb, }look
        JMP     clear
bomb    DAT     #9, #9
        END     start
`;
const SOLUTIONS = {
  "a-tie-with-an-imp": "MOV 0, 1\n",
  "a-stone": stone(1),
  "an-imp-gate": "JMP 0, <-2\n",
  "a-paper": PAPER,
  "a-scanner": SCANNER,
  "stone-beats-scanner": stone(3039),
  "beat-folder": SCISSORS,
};

const names = fs.readdirSync(LESSONS).sort();
const lessons = names.map((name) => readLesson(name, fs.readFileSync(new URL(name, LESSONS), "utf8")));

/** Returns whether a source reaches the goal of a lesson, as the page checks it. */
function passes({ goal, opponents, sources }, source) {
  const others = [...opponents.map(example), ...sources.map(({ text }) => text)];
  const warriors = [source, ...others].map((text) => mars.assemble(text, { rounds: 100 }));
  const { wins = 0, survives = 0, cells = Infinity } = goal;
  const [row] = mars.match(warriors, { rounds: 100 });
  return describe(warriors[0]).cells.length <= cells && row.wins >= wins && row.wins + row.ties >= survives;
}

test("there are ten lessons, and each has what it needs", () => {
  assert.equal(lessons.length, 10);
  for (const { title, text, judge, opponents, sources, start } of lessons) {
    assert(title && text.length >= 2 && opponents.length + sources.length > 0, title);
    assert.equal(Boolean(start), judge === "match", title);
    for (const name of opponents) assert(example(name), name);
  }
});

for (const lesson of lessons.filter(({ judge }) => judge === "match")) {
  test(`the lesson ${lesson.id} can be passed, but not by what it begins with or an example of its hint`, () => {
    assert(passes(lesson, SOLUTIONS[lesson.id]));
    const named = [...lesson.hint.matchAll(/\w+\.red/g)].map(([name]) => example(name));
    for (const source of [lesson.start, ...named]) assert(!passes(lesson, source));
  });
}

/** Opens the battle of the first lesson that a judge, such as "death", checks. */
function opened(desk, judge) {
  const lesson = lessons.find((one) => one.judge === judge);
  const warriors = lesson.opponents.map((name) => ({ name, text: example(name) }));
  const terms = { settings: DEFAULTS, seed: 1, rounds: 100, round: 0, position: 0, formula: "" };
  return desk.open({ ...terms, warriors, edits: [] });
}

test("the death that is to be found is one, and is not at the end", () => {
  const { deaths, end } = opened(new Desk(mars), "death");
  assert(deaths.length === 1 && deaths[0].turn < end);
});

test("history can be changed so that no warrior dies", () => {
  const desk = new Desk(mars);
  assert.equal(opened(desk, "saved").deaths.length, 1);
  const cell = desk.cellOf("jmp 0");
  assert.equal(desk.edit(0, 6000, { kind: "cell", address: 0, last: 0, cell }).deaths.length, 0);
});

test("wrong lessons are rejected", () => {
  for (const text of ["judge: match\n", "title: x\njudge: fly\n", "x: y\n"]) {
    assert.throws(() => readLesson("1-x.txt", text), /wrong/);
  }
  assert.throws(() => readLesson("1-x.txt", "title: x\njudge: match\ngoal: wins many\n"), /wrong/);
});
