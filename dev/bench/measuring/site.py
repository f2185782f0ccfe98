"""Measures the site in Chromium and Firefox: its size, how soon it shows a fight and a turn, how often it draws, and
its memory.

Times are medians in milliseconds, except for the slowest turn. The battles are `silk` against `paper` in 94nop (160,000
turns) and in 94x (1,000,000).
"""
from __future__ import annotations

import argparse
import gzip
import os
from pathlib import Path

from browsers import Browser, chromium, firefox, served
from program import TOP

SITE = Path(TOP, "build", "site")
FIRST = """const pause = () => new Promise(done => setTimeout(done, 5));
while (!performance.getEntriesByName("first fight").length) await pause();
const paint = performance.getEntriesByName("first-contentful-paint")[0]?.startTime ?? 0;
return [paint, performance.getEntriesByName("first fight")[0].startTime];"""
BATTLE = """const {session, examples, terms} = corewar;
const median = times => times.sort((a, b) => a - b)[times.length >> 1];
const timed = async (count, act) => {
  const times = [];
  for (let i = 0; i < count; i++) {
    const then = performance.now();
    await act();
    times.push(performance.now() - then);
  }
  return [median(times), times.at(-1)];
};
const drawings = async way => {
  session.play(way);
  const frames = session.frames, then = performance.now();
  await new Promise(done => setTimeout(done, 4000));
  const rate = (session.frames - frames) / (performance.now() - then) * 1000;
  session.stop();
  while (!session.isSettled) await new Promise(done => setTimeout(done, 5));
  return rate;
};
session.stop();
hill.value = given[0];
hill.onchange();
const warriors = ["silk.red", "paper.red"].map(name => examples.find(one => one.name === name));
const fight = {...terms.value, round: 0, warriors, edits: []};
const opened = await timed(3, () => session.open(fight, {plays: false}));
const turn = () => Math.floor(Math.random() * (session.end - 1)) + 1;
const shown = await timed(200, () => session.desk.turn(0, turn()));
const moved = await timed(50, () => session.desk.move(0, turn()));
await session.go(session.end >> 2);
const {machine, marks} = await session.desk.memory();
return {turns: session.end, opened: opened[0], turn: shown[0], "slowest turn": shown[1], "what a turn did": moved[0],
  "drawings/s": await drawings(1), "backwards/s": await drawings(-1), "memory, MB": (machine + marks) / 1e6};"""


def print_sizes() -> None:
    sizes = {path.name: len(gzip.compress(path.read_bytes(), 9)) for path in sorted(SITE.iterdir())}
    for name, size in sizes.items():
        print(f"{name}: {size / 1000:.0f} kB gzipped")
    print(f"the site without one.html: {(sum(sizes.values()) - sizes['one.html']) / 1000:.0f} kB gzipped")


def measure_browser(name: str, browser: Browser, address: str) -> None:
    """Prints the median times of seven starts, and the figures of both battles."""
    starts = []
    for _ in range(7):
        browser.open("about:blank")
        browser.open(address)
        starts.append(browser.run(FIRST))
    paint, fight = (sorted(column)[3] for column in zip(*starts))
    print(f"{name}: first paint {paint:.0f}, first fight {fight:.0f}")
    for hill in ("94nop", "94x"):
        found = browser.run(BATTLE, hill)
        print(f"{name}, {hill}: " + ", ".join(f"{what} {value:,.1f}" for what, value in found.items()))


def measure(_words: argparse.Namespace) -> None:
    print_sizes()
    with served(SITE) as address:
        for name, start in (("Chromium", chromium), ("Firefox", firefox)):
            browser = start()
            try:
                browser.resize(1600, 1000)
                measure_browser(name, browser, f"{address}/index.html")
            finally:
                browser.end()
    print(f"load of the machine: {os.getloadavg()[0]:.1f} on {os.cpu_count()} processors")
