// Shows that a link carries a fight as it is, and that links of strangers are checked.
import assert from "node:assert/strict";
import { test } from "node:test";

import { pack, readAddress, unpack } from "../src/app/link.js";
import { HILLS } from "../src/model/settings.js";

const cell = { op: 7, modifier: 1, aMode: 1, bMode: 1, a: 7999, b: 0 };
const fight = {
  settings: HILLS["94nop"],
  seed: 2147483646,
  rounds: 100000,
  round: 99999,
  position: 4000,
  formula: "W*S",
  warriors: [
    { name: "ä <b>.red", text: ";name \ud800 “odd”\nMOV 0, 1\r\n" },
    { name: "imp.red", text: "MOV 0, 1\n" },
  ],
  edits: [
    { turn: 0, edit: { kind: "cell", address: 3, last: 7999, cell } },
    { turn: 5, edit: { kind: "move", warrior: 1, place: 0, address: 0 } },
    { turn: 5, edit: { kind: "add", warrior: 0, address: 7 } },
    { turn: 9, edit: { kind: "kill", warrior: 0, place: 1 } },
  ],
};

test("a link carries the whole fight", async () => {
  for (const pinned of [0, 7999, null]) {
    const shared = { fight, turn: 12, pinned };
    assert.deepEqual(await unpack(await pack(shared)), shared);
  }
  // Settings that are not those of a hill.
  const settings = { ...HILLS.nano, cycles: 10_000_000, readLimit: 7 };
  const other = { ...fight, settings, position: 0, edits: [] };
  assert.deepEqual((await unpack(await pack({ fight: other, turn: 0, pinned: null }))).fight, other);
});

test("a link does not inflate without end", async () => {
  // 100 kB of a link are 100 MB of text, of which 16 MB are read.
  let read = 0;
  const zeros = new ReadableStream({
    pull(controller) {
      read += 1 << 20;
      if (read > 100 << 20) controller.close();
      else controller.enqueue(new Uint8Array(1 << 20).fill(32));
    },
  });
  const deflated = zeros.pipeThrough(new CompressionStream("deflate-raw"));
  const text = Buffer.from(await new Response(deflated).arrayBuffer()).toString("base64url");
  const before = process.memoryUsage().arrayBuffers;
  await assert.rejects(unpack(text), /damaged or incomplete/);
  assert.ok(process.memoryUsage().arrayBuffers - before < 60 << 20);
});

test("an address selects a part of a fight", async () => {
  const { text, selection } = readAddress(`#f=${await pack({ fight, turn: 12, pinned: 3 })}&w=1&r=7&t=100&s=8`);
  const found = await unpack(text, selection);
  assert.deepEqual([found.fight.warriors, found.fight.round, found.turn], [[fight.warriors[1]], 7, 100]);
  assert.equal(found.fight.seed, 8);
});

test("numbers and edits out of range are rejected", async () => {
  const wrong = [
    { seed: 0 },
    { seed: 2147483647 },
    { rounds: 100001 },
    { round: 100000 },
    { position: 8001 },
    { settings: { ...HILLS.nano, core: 0 } },
    { warriors: [] },
    { warriors: Array(17).fill(fight.warriors[1]) },
    { edits: [{ turn: 0, edit: { kind: "add", warrior: 0, address: 8000 } }] },
  ];
  for (const change of wrong) {
    const text = await pack({ fight: { ...fight, ...change }, turn: 0, pinned: null });
    await assert.rejects(unpack(text), Error, JSON.stringify(change));
  }
});
