// Tests what the scores of two versions of a warrior show: the change with its standard error, and the verdict.
import assert from "node:assert/strict";
import { test } from "node:test";

import { changeOf, isLead, isSure, verdict } from "../src/words/comparison.js";

const old = [[0, 0, 0, 0], [0, 3, 0, 3]];
const now = [[1, 1, 1, 1], [3, 3, 3, 3]];

test("a change has its standard error", () => {
  const found = changeOf(old, now, true);
  assert.deepEqual([found.change, found.error.toFixed(4), isSure(found)], [1.25, "0.4330", true]);
  assert.equal(verdict(found), "The new version is better: the change is 2.9 standard errors.");
  assert.equal(verdict(changeOf(now, old, true)), "The new version is worse: the change is 2.9 standard errors.");
  const small = changeOf(old.slice(1), [[0, 3, 3, 3]], true);
  const chance = "The change is 1.0 standard errors, which may be chance. More rounds can detect smaller changes.";
  assert.deepEqual([verdict(small), isSure(small)], [chance, false]);
});

test("a change in every round is no chance", () => {
  const same = changeOf(now, now, true);
  assert.deepEqual([same.change, same.error, isSure(same)], [0, 0, false]);
  assert.equal(verdict(same), "Both versions score the same in every round.");
  // The mean change over five opponents is not a whole number.
  const rows = (value) => [Array(7).fill(value), ...Array(4).fill(Array(7).fill(2))];
  const found = changeOf(rows(0), rows(1), true);
  assert.deepEqual([found.change, found.error, isSure(found)], [0.2, 0, true]);
  assert.equal(verdict(found), "The change is the same in every round.");
});

test("chance is not known from one round, or for a given position", () => {
  for (const found of [changeOf([[0]], [[3]], true), changeOf(old, now, false)]) {
    assert.deepEqual([found.error, isSure(found)], [null, false]);
    assert.match(verdict(found), /^Chance cannot be estimated/);
  }
});

test("the best of many is better by chance", () => {
  const row = (wins) => ({ points: 3 * wins, wins, ties: 0, losses: 100 - wins, values: [0, 3, 1] });
  // 15 wins more of 100 are 2.1 standard errors.
  assert.deepEqual([1, 400].map((count) => isLead(row(65), row(50), count)), [true, false]);
  assert.deepEqual([1, 400].map((count) => isLead(row(75), row(50), count)), [true, true]);
  assert.equal(isLead(row(60), row(50), 1), false);
});
