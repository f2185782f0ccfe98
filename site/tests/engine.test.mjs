// Tests mars.wasm and its calls: random battles as the native program plays them, and the results, errors and memory of
// each call.
//
//     MARS_WASM=build/mars.wasm MARS=crates/mars/out/mars node --test site/tests/
import assert from "node:assert/strict";
import { execFileSync } from "node:child_process";
import fs from "node:fs";
import os from "node:os";
import path from "node:path";
import { after, test } from "node:test";

import { Battle } from "../src/engine/battle.js";
import { deedOf } from "../src/battle/records.js";
import * as layout from "../src/model/layout.js";
import { Mars, MarsError } from "../src/engine/mars.js";
import { MODES, MODIFIERS, OPCODES, cellText } from "../src/model/cells.js";
import { DEFAULTS, HILLS } from "../src/model/settings.js";

const { ASSEMBLY, BLOCK, EDIT, EXECUTES, LOAD, MarsRow, NUMBER_DIED, OUT_OF_MEMORY, PROCESS, WARRIOR } = layout;
const EXAMPLES = new URL("../../examples/", import.meta.url);
const BATTLES = Number(process.env.BATTLES ?? 40);
const code = fs.readFileSync(process.env.MARS_WASM);
const mars = await Mars.load(code);
const folder = fs.mkdtempSync(path.join(os.tmpdir(), "engine-"));
after(() => fs.rmSync(folder, { recursive: true }));

// A generator of the test's own, so that each run has the same battles.
let state = 12345;
const random = (limit) => {
  state = (Math.imul(state, 1103515245) + 12345) >>> 0;
  return Math.floor((state / 2 ** 32) * limit);
};
const pick = (list) => list[random(list.length)];
const example = (name) => fs.readFileSync(new URL(`${name}.red`, EXAMPLES), "utf8");

function randomSource(length) {
  const operand = () => `${pick([...MODES])}${random(40) - 20}`;
  const line = () => `${pick(OPCODES)}.${pick(MODIFIERS)} ${operand()}, ${operand()}`;
  return Array.from({ length: 1 + random(length) }, line).join("\n") + "\n";
}

function randomFight() {
  const hill = HILLS[pick(["94nop", "tiny", "nano"])];
  const settings = { ...hill, cycles: Math.min(hill.cycles, pick([100, 2000])) };
  if (random(4) === 0) {
    settings.readLimit = 1 + random(settings.core);
    settings.writeLimit = 1 + random(settings.core);
  }
  const sources = Array.from({ length: 1 + random(3) }, () => randomSource(Math.min(12, settings.longest)));
  return { settings, sources, seed: 1 + random(1e6), rounds: 1 + random(4) };
}

/** Runs the native program on a fight, and returns its output. */
function native({ settings, sources, seed, rounds }, options, input = "") {
  const files = sources.map((source, index) => {
    const file = path.join(folder, `${index}.red`);
    fs.writeFileSync(file, source);
    return file;
  });
  const { core, cycles, processes, longest, distance, readLimit, writeLimit } = settings;
  const numbers = { "-s": core, "-c": cycles, "-p": processes, "-l": longest, "-d": distance, "-r": rounds };
  numbers["--seed"] = seed;
  if (readLimit) Object.assign(numbers, { "--read-limit": readLimit, "--write-limit": writeLimit });
  const given = Object.entries(numbers).flatMap(([name, value]) => [name, String(value)]);
  return execFileSync(process.env.MARS, [...given, ...options, ...files], { input, encoding: "latin1" });
}

/** Returns the code and the number of the error that an act throws, or null if it throws none. */
function errorOf(act) {
  try {
    act();
  } catch (error) {
    assert(error instanceof MarsError, String(error));
    return [error.code, error.number];
  }
  return null;
}

test("a row has each column of the header", () => {
  const [row] = mars.match([mars.assemble("MOV 0, 1")]);
  assert.deepEqual(["size", ...Object.keys(row)], Object.keys(MarsRow));
});

test("rows are read by the positions of their fields, not by their order", () => {
  const warriors = ["dwarf", "imp"].map((name) => mars.assemble(example(name)));
  const read = () => {
    const battle = mars.start(warriors);
    const { changes } = deedOf(mars.play(battle, 1, { records: 1, touched: 1 }));
    mars.play(battle, 80_000);
    return { changes, deaths: battle.deaths, outcome: mars.outcomes(warriors, [[0, 1]])[0][0][1] };
  };
  const swap = (struct, one, other) => {
    [struct[one], struct[other]] = [struct[other], struct[one]];
  };
  const swapAll = () => {
    swap(layout.MarsChange, "before", "after");
    swap(layout.MarsDeath, "warrior", "turns");
    swap(layout.MarsOutcome, "turns", "start");
  };
  const { changes: [change], deaths: [death], outcome } = read();
  swapAll();
  const other = read();
  swapAll();
  assert.deepEqual(other.changes, [{ ...change, before: change.after, after: change.before }]);
  assert.deepEqual(other.deaths, [{ warrior: death.turns, turns: death.warrior }]);
  assert.deepEqual(other.outcome, { ...outcome, turns: outcome.start, start: outcome.turns });
});

test("the outcomes of many matches are those of each, and counted if that is wanted", () => {
  const warriors = ["dwarf", "imp", "paper"].map((name) => mars.assemble(example(name)));
  const [lineups, seeds, rounds] = [[[0, 1], [2, 0, 1], [1]], [7, 8, 9], 5];
  const found = mars.outcomes(warriors, lineups, { rounds, seeds });
  lineups.forEach((lineup, index) => {
    const rows = mars.match(lineup.map((one) => warriors[one]), { rounds, seed: seeds[index] });
    const lived = lineup.map((_, who) => found[index].filter((round) => round[who].survived).length);
    assert.deepEqual(lived, rows.map(({ wins, ties }) => wins + ties));
    assert.ok(found[index].flat().every((one) => one.turns > 0 && one.own_turns === 0));
  });
  const [[[counted]]] = mars.outcomes(warriors, [[1]], { counts: true });
  assert.deepEqual([counted.own_turns, counted.spawned, counted.written, counted.touched], [80000, 0, 8000, 8000]);
  assert.throws(() => mars.outcomes(warriors, [[0, 3]]), MarsError);
  assert.throws(() => mars.outcomes(warriors, [Array(17).fill(0)]), MarsError);
});

test("random battles are those of the native program", () => {
  for (let index = 0; index < BATTLES; index++) {
    const fight = randomFight();
    const { settings, sources, seed, rounds } = fight;
    const warriors = sources.map((source) => mars.assemble(source, { settings, warriors: sources.length, rounds }));
    const table = native(fight, ["-b"]).trimEnd().split("\n").slice(1);
    const rows = mars.match(warriors, { settings, seed, rounds });
    const numbers = rows.map(({ points, wins, ties, losses }) => [points, wins, ties, losses]);
    assert.deepEqual(table.map((line) => line.trim().split(/\s+/).slice(0, 4).map(Number)), numbers);

    const battle = mars.start(warriors, { settings, seed, rounds });
    const first = battle.copy();
    const turns = random(300);
    mars.play(battle, turns);
    mars.check(battle);
    const lines = `${turns ? `run ${turns}\n` : ""}list 0 ${settings.core}\n`;
    const listed = native(fight, ["-e"], lines).trimEnd().split("\n").slice(turns ? 1 : 0);
    const cells = listed.map((line) => /[A-Z]{3}\.\S+ \S+, \S+/.exec(line)?.[0]);
    assert.deepEqual(cells, Array.from(cells, (_, address) => cellText(battle.cell(address), settings.core)));
    assert.equal(mars.debug(first, lines).trimEnd().split("\n").at(-1), listed.at(-1));
  }
});

test("a load file is that of the native program", () => {
  for (const name of ["dwarf", "paper", "silk"]) {
    const fight = { settings: DEFAULTS, sources: [example(name)], seed: 1, rounds: 1 };
    const { lines, ...warrior } = mars.assemble(example(name));
    const load = mars.writeLoad(warrior);
    assert.equal(load, native(fight, ["--load"]));
    assert.deepEqual(mars.readLoad(load), warrior);
    assert.equal(lines.length, mars.readLoad(load).cells.length / 3);
  }
});

test("turns one by one are turns at once, with their records", () => {
  const warriors = [mars.assemble(example("dwarf")), mars.assemble(example("imp"))];
  const [single, whole] = [mars.start(warriors), mars.start(warriors)];
  const { records, touched } = mars.play(whole, 100, { records: 100, touched: 100 });
  for (let turn = 0; turn < 100; turn++) {
    const one = mars.play(single, 1, { records: 1, touched: 1 });
    assert.deepEqual(one.records, records.subarray(turn * one.records.length, (turn + 1) * one.records.length));
    assert.deepEqual(one.touched, touched.subarray(turn * one.touched.length, (turn + 1) * one.touched.length));
  }
  assert.deepEqual(single.words, whole.words);
  const rest = mars.play(whole, 0xffffffff);
  assert.deepEqual([whole.over, whole.turns, rest.records.length], [true, 7798, 0]);
  assert.deepEqual(whole.deaths, [{ warrior: 1, turns: 7798 }]);
});

test("ancestors of processes are found", () => {
  // The process at the split splits in turns 1, 3 and 6. A process that has split goes on at the jump, and stays there.
  const battle = mars.start([mars.assemble("SPL 0\nJMP 0\n")]);
  assert.deepEqual(mars.ancestors(battle, 6, 0, 3), { births: Uint32Array.of(6, 3, 1), first: 0 });
  mars.play(battle, 5);
  assert.deepEqual(mars.ancestors(battle, 1, 0, 3), { births: Uint32Array.of(6), first: 0 });
  assert.deepEqual(mars.ancestors(battle, 1, 0, 0), { births: new Uint32Array(0), first: 1 });
  assert.equal(battle.turns, 5);
  assert.throws(() => mars.ancestors(battle, 1, 0, 4), { code: PROCESS, message: "process" });
  // There are more births than `ancestors` allocates at first.
  const turns = (1100 * 1101) / 2;
  const settings = { ...DEFAULTS, cycles: turns };
  const last = mars.ancestors(mars.start([mars.assemble("SPL 0\nJMP 0\n")], { settings }), turns, 0, 1100);
  assert.deepEqual([last.births.length, last.births[0], last.births.at(-1), last.first], [1100, turns, 1, 0]);
});

test("turns are followed, found and counted", () => {
  const battle = mars.start([mars.assemble(example("dwarf")), mars.assemble(example("imp"))]);
  const followed = { battle, pasts: new Uint32Array(3 * battle.core).fill(255) };
  const died = [[EXECUTES, NUMBER_DIED, 1, 1]];
  const before = battle.copy();
  assert.deepEqual([...mars.find(followed, 8000, died, 9)].slice(0, 6), [7798, 1, 0, 5203, 0, 7797]);
  assert.deepEqual([mars.find(followed, 7797, died, 9).length, mars.find(followed, 100, [], 9).length], [0, 63]);
  // Questions change nothing.
  assert.deepEqual(battle.words, before.words);
  const moments = mars.moments({ battle: before, pasts: followed.pasts.slice() }, 4000, 2, died);
  for (const [row, turns, found, processes] of [[0, 4000, 0, [1, 1]], [34, 7798, 1, [1, 0]]]) {
    mars.follow(followed, 4000);
    const owned = (warrior) => followed.pasts.filter((who, at) => at % 3 === 0 && who === warrior).length;
    const expected = [turns, found, owned(0), owned(1), ...Array(14).fill(0), ...processes, ...Array(14).fill(0)];
    assert.deepEqual([...moments.subarray(row, row + 34)], expected);
  }
  assert.deepEqual([battle.turns, ...followed.pasts.subarray(3 * 5203, 3 * 5203 + 2)], [7798, 0, 7797]);
  const [own, other] = [battle, before].map(({ words, length }) => words.subarray(0, length));
  assert.deepEqual(own, other);
});

test("edits are made or refused by name, and wrong words are no battle", () => {
  const battle = mars.start([mars.assemble(example("imp"))]);
  const before = battle.copy();
  const cell = { op: OPCODES.indexOf("JMP"), modifier: 1, aMode: 1, bMode: 1, a: 7, b: 0 };
  assert.deepEqual(errorOf(() => mars.edit(battle, { kind: "cell", address: 8000, cell })), [EDIT, 2]);
  assert.deepEqual(errorOf(() => mars.edit(battle, { kind: "kill", warrior: 0, place: 1 })), [EDIT, 5]);
  const message = "refused 5 NoSuchProcess";
  assert.throws(() => mars.edit(battle, { kind: "kill", warrior: 0, place: 1 }), { message });
  assert.deepEqual(battle.words, before.words);
  mars.edit(battle, { kind: "cell", address: 3, cell });
  mars.edit(battle, { kind: "add", warrior: 0, address: 3 });
  assert.deepEqual([battle.cell(3), [...battle.queue(0)]], [cell, [0, 3]]);
  battle.words[2] = 0;
  assert.deepEqual(errorOf(() => mars.check(battle)), [BLOCK, 3]);
  assert.throws(() => new Battle(new Uint32Array(64)), TypeError);
});

test("errors have their line or their index", () => {
  const message = "line 2: 2 Operation";
  assert.throws(() => mars.assemble("MOV 0, 1\nFOO 1\n"), { code: ASSEMBLY, number: 2, line: 2, message });
  assert.throws(() => mars.readLoad("MOV 0\n"), { code: LOAD, number: 1, line: 1 });
  const imp = mars.assemble("MOV 0, 1");
  const wrong = { ...imp, cells: Uint32Array.of(...imp.cells, 16, 0, 0) };
  assert.throws(() => mars.match([imp, wrong]), { code: WARRIOR, number: 3, warrior: 1, line: 1 });
  for (const name of ["é", "A\0B"])
    assert.throws(() => mars.writeLoad({ ...imp, name }), { code: WARRIOR, number: 5 });
});

test("a long warrior fits", () => {
  const long = mars.assemble("NOP 0\n".repeat(300), { settings: { ...DEFAULTS, longest: 300, distance: 300 } });
  assert.equal(long.cells.length, 900);
});

test("out of memory is an error like any other, and calls succeed once memory is free again", async () => {
  const { instance } = await WebAssembly.instantiate(code, {});
  const blocks = [];
  for (let size = 1n << 29n; size >= 16n; size /= 2n) {
    for (let block; (block = instance.exports.mars_alloc(size)); ) blocks.push(block);
  }
  const full = new Mars(instance);
  assert.deepEqual(errorOf(() => full.assemble("MOV 0, 1")), [OUT_OF_MEMORY, 0]);
  for (const block of blocks) instance.exports.mars_free(block);
  const imp = full.assemble("MOV 0, 1");
  assert.equal(full.writeLoad(imp).split("\n").at(-2), "MOV.I $0, $1");
  assert.equal(full.match([imp, imp], { settings: HILLS.nano })[0].ties, 1);
});

test("a size that is none is a RangeError, and changes nothing", () => {
  const imp = mars.assemble("MOV 0, 1");
  const battle = mars.start([imp, imp]);
  for (const rows of [-1, -(2 ** 40), 0.5, NaN, Infinity, 2 ** 60]) {
    for (const name of ["records", "touched"]) {
      assert.throws(() => mars.play(battle, 50, { [name]: rows }), RangeError, `${name}: ${rows}`);
    }
  }
  assert.equal(battle.turns, 0);
  assert.deepEqual(mars.assemble("MOV 0, 1"), imp);
});

test("after a trap all calls are refused", async () => {
  const { instance } = await WebAssembly.instantiate(code, {});
  const freed = [];
  const trapped = new Mars({
    exports: {
      ...instance.exports,
      mars_check: () => {
        throw new WebAssembly.RuntimeError("unreachable");
      },
      mars_free: (block) => freed.push(block),
    },
  });
  const imp = trapped.assemble("MOV 0, 1");
  const battle = trapped.start([imp, imp]);
  freed.length = 0;
  assert.throws(() => trapped.check(battle), WebAssembly.RuntimeError);
  for (const act of [() => trapped.assemble("MOV 0, 1"), () => trapped.play(battle, 1), () => trapped.match([imp])]) {
    assert.throws(act, { message: "the machine has failed in an earlier call; load it again" });
  }
  assert.deepEqual(freed, []);
});

test("blocks of the heap never overlap, even when the memory is full", async () => {
  const { instance } = await WebAssembly.instantiate(code, {});
  const { memory, mars_alloc: alloc, mars_free: free } = instance.exports;
  const blocks = [];
  let refused = 0;
  for (let step = 0; step < 5000; step++) {
    const size = Math.ceil(2 ** (random(24 * 16) / 16));
    const block = random(3) ? Number(alloc(BigInt(size))) : 0;
    if (block) {
      assert.equal(block % 16, 0);
      Buffer.from(memory.buffer, block, size).fill(step % 251);
      blocks.push({ block, size, byte: step % 251 });
    } else if (blocks.length) {
      refused += memory.buffer.byteLength > 2 ** 30 - 2 ** 24;
      const [{ block: freed, size: length, byte }] = blocks.splice(random(blocks.length), 1);
      assert(Buffer.from(memory.buffer, freed, length).equals(Buffer.alloc(length, byte)));
      free(BigInt(freed));
    }
  }
  assert(refused > 100);
  assert(memory.buffer.byteLength <= 2 ** 30);
});
