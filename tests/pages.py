"""Tests of the site in a browser, which each browser's module imports."""
from __future__ import annotations

import functools
import json
import re
import subprocess
from collections import Counter
from collections.abc import Iterator
from pathlib import Path

import pytest
from browsers import Browser, Strict, served
from conftest import COMMAND, ENVIRONMENT, EXAMPLES, TOP
from costly import slow
from counting import PROGRAM, skip

from corewar.analysis.losses import Death, fates
from corewar.battle.history import History
from corewar.battle.labels import Sources
from corewar.debugger.commands import COMMANDS, execute
from corewar.debugger.session import Session
from corewar.engine.calls import Match
from corewar.engine.sources import read
from corewar.model.errors import CorewarError
from corewar.model.cells import MODES, MODIFIERS, OPCODES


@pytest.fixture(scope="module")
def site() -> Iterator[str]:
    """Yields the address of the built site, served as files."""
    if not (TOP / "build" / "site").is_dir():
        skip("the site", "it is not built; `make site` builds it", "esbuild")
    with served(TOP / "build" / "site") as address:
        yield f"{address}/index.html"


@pytest.fixture
def page(browser: Browser, site: str) -> Iterator[Browser]:
    """Yields the page as a newcomer opens it."""
    browser.open(site)
    # A page that is left may still store its settings.
    browser.run("localStorage.clear(); Storage.prototype.setItem = () => {}")
    browser.open(f"{site}?{id(browser)}")
    browser.until("window.corewar?.session.view")
    yield browser
    found = browser.errors()
    assert found == [], found


def native(*words: object, input: str = "") -> str:
    """Returns the output of the native program."""
    command = [PROGRAM, *map(str, words)]
    return subprocess.run(command, input=input, capture_output=True, encoding="latin-1", check=True).stdout


def files(*names: str) -> list[Path]:
    return [EXAMPLES / f"{name}.red" for name in names]


def fight(page: Browser, *names: str) -> None:
    """Fights some examples and stops at the start."""
    code = """const found = given[0].map(name => corewar.examples.find(one => one.name === `${name}.red`));
      await corewar.fight(corewar.shelf.mark(found), false);"""
    page.run(code, list(names))


def go_to_turn(page: Browser, turn: int) -> None:
    """Shows a turn, and waits until all of it is shown."""
    page.run("corewar.session.jump(given[0])", turn)
    page.until("corewar.session.isSettled")
    page.run("await new Promise(done => setTimeout(done, 150))")


def answer(page: Browser, line: str) -> str:
    """Returns the last line of the reply to a command of the debugger."""
    code = "await corewar.console.run(given[0]); return document.querySelector('#answers').lastChild.textContent"
    found: str = page.run(code, line)
    return found


def test_a_newcomer_sees_a_fight(page: Browser) -> None:
    first = page.value("corewar.session.turn")
    page.until(f"corewar.session.turn > {first} && corewar.session.way === 1")
    assert page.value("document.title") == "Dwarf against Imp · Core War"
    # On a slow machine the first caption may be over, so the test returns to it.
    go_to_turn(page, 0)
    assert "share a ring of 8,000 cells" in page.text("caption")
    # The story shows the end from the start, as the timeline does.
    past = "[...document.querySelectorAll('#story li')].map(one => one.className === 'past')"
    assert page.value(past) == [True, False, False, False]


def test_a_newcomer_is_welcome(page: Browser, site: str) -> None:
    """A line says what the page is, also at the next visit. Its button begins the first lesson, and closes the line for
    good.
    """
    shown = "!document.getElementById('welcome').hidden"
    go_to_turn(page, 7798)
    page.open(f"{site}?second")
    page.until("window.corewar?.session.view")
    assert page.value(shown)
    page.click("#learn-now")
    page.until("location.hash === '#learn/1' && document.getElementById('lesson-box').checkVisibility()")
    assert not page.value(shown)
    page.open(f"{site}?third")
    page.until("window.corewar?.session.view")
    assert not page.value(shown)


def test_commands_are_those_of_the_terminal(page: Browser) -> None:
    answer(page, "help")
    shown = page.value("[...document.querySelectorAll('#answers li')].map(one => one.textContent)")
    commands = [one for one in COMMANDS.values() if one.name not in ("quit", "source", "log")]
    assert [one.name for one in commands if not any(line.startswith(one.usage) for line in shown)] == []
    assert [one.name for one in commands if "not a function" in answer(page, one.name)] == []
    assert not any(line.startswith("quit") for line in shown) and "A warrior W is a number" in "".join(shown)
    assert answer(page, "help rs") == "reverse-step [N|W]           step back in the same way (rs, back)"
    assert answer(page, "queue") == answer(page, "p") and answer(page, "quit").startswith("unknown command")
    assert answer(page, "find dies imp") == "dies Imp: 1 time, after turn 7798"
    assert answer(page, "find splits dwar") == "splits Dwarf: never"
    assert re.fullmatch(r"changes 3 \(bomb\): \d+ times, after turn (1, .*) and \d+ more", answer(page, "f changes 3"))
    # Only what moves or lists is repeated by an empty line.
    go_to_turn(page, 100)
    answer(page, "step 2")
    answer(page, "")
    assert page.value("corewar.session.turn") == 104
    answer(page, "kill 0 0")
    before = page.value("corewar.session.futures.length")
    answer(page, "")
    assert page.value("corewar.session.futures.length") == before


def test_keys_move_in_time(page: Browser) -> None:
    page.press(" ")
    page.until("corewar.session.way === 0 && corewar.session.isSettled")
    at = page.value("corewar.session.turn")
    page.press("Right")
    page.until(f"corewar.session.turn === {at + 1}")
    page.press("Left", held="Shift")
    page.until(f"corewar.session.turn === {max(0, at - 9)}")
    go_to_turn(page, 5000)
    page.press("j")
    page.until("corewar.session.turn < 5000")
    page.press("k", "d")
    page.until("corewar.session.turn === 7798 && corewar.session.isSettled")
    assert "Imp is dead" in page.text("turn-words") and page.text("outcome") == "Dwarf wins after 7,798 turns."
    page.press("Home")
    page.until("corewar.session.turn === 0")


def test_a_turn_in_words(page: Browser) -> None:
    go_to_turn(page, 7797)
    executed = "Dwarf executed MOV.I $2, @2 at 1. It wrote DAT.F #0, #-2800 to 5,203, replacing Imp’s MOV.I $0, $1."
    assert page.text("turn-words") == f"{executed} It read cell 3 (bomb)."
    assert page.text("following").endswith("End the process. dwarf.red, line 12")


def test_a_cell_is_inspected(page: Browser) -> None:
    """The cell under the pointer is described in words; a click pins it and lists it with its changes."""
    go_to_turn(page, 7797)
    point = page.value("corewar.theatre.core.pointOf(5203)")
    page.mouse(point["x"], point["y"])
    page.until("!document.getElementById('tip').hidden")
    assert "End the process." in page.text("tip") and "Written by Dwarf in turn 7,797" in page.text("tip")
    page.mouse(point["x"], point["y"], "pointerDown", "pointerUp")
    page.until("corewar.session.pinned === 5203")
    page.until("document.getElementById('where').textContent === 'Cell 5,203'")
    page.until("document.getElementById('past').textContent.includes('Turn 7,796: Imp (was DAT.F $0, $0)')")
    page.click("#seek [data-word=changes][data-way=back]")
    page.until("corewar.session.turn === 7796")
    page.click("#seek [data-word=reads][data-way=back]")
    page.until("document.getElementById('cell-words').textContent.includes('is not read before')")
    page.press("Escape")
    page.until("corewar.session.pinned === null")


@pytest.mark.parametrize("names", [("dwarf", "imp"), ("silk", "paper"), ("scanner", "vampire")])
def test_turns_are_those_of_the_program(page: Browser, names: tuple[str, str]) -> None:
    fight(page, *names)
    end = page.value("corewar.session.end")
    for turn in (1, end // 3, end // 2 + 1, end):
        go_to_turn(page, turn)
        assert page.value("corewar.session.turn") == turn
        listed = native("-e", *files(*names), input=f"run {turn}\nlist 0 8000\n").splitlines()[-8000:]
        cells = page.value("[...corewar.session.view.cells]")
        for address, line in enumerate(listed):
            assert text_of(cells[3 * address : 3 * address + 3]) in line, (turn, address)


def text_of(words: list[int]) -> str:
    """Returns the text of a cell of a core of 8,000, given as the three words of a battle."""
    head, a, b = words
    first, second = ((value + 3999) % 8000 - 3999 for value in (a, b))
    modes = MODES[head >> 16 & 255], MODES[head >> 24]
    return f"{OPCODES[head & 255]}.{MODIFIERS[head >> 8 & 255]} {modes[0]}{first}, {modes[1]}{second}"


def test_the_end_leads_to_the_death(page: Browser) -> None:
    """The button Why? leads to the write that killed, draws it, lists the turns, and marks both lines of source."""
    page.run("corewar.session.jump(7700); corewar.session.setRate(400); corewar.session.play(1)")
    page.until("!document.getElementById('ending').hidden")
    go_to_turn(page, 7700)
    assert page.value("document.getElementById('ending').hidden")
    # What can be done at the end is also offered if a key leads there.
    page.press("End")
    page.until("!document.getElementById('ending').hidden")
    assert page.text("caption") == "Dwarf wins after 7,798 turns."
    page.click("#why-now")
    page.until("corewar.session.pinned === 5203 && corewar.session.turn === 7797 && corewar.session.isSettled")
    lines = page.value("[...document.querySelectorAll('#chain li')].map(one => one.textContent)")
    assert [line[:5] for line in lines] == ["7,795", "7,796", "7,797", "7,798"]
    page.until("document.getElementById('caption').textContent === 'Dwarf wrote DAT.F #0, #-2800 to 5,203.'")
    # While a death is explained, all but the explanation is still offered.
    shown = "['why-now', 'again', 'next-fight'].map(id => document.getElementById(id).checkVisibility())"
    assert page.value(shown) == [False, True, True]
    assert lines[2].startswith("7,797Dwarf wrote DAT.F #0, #-2800 to 5,203.")
    assert "MOV bomb, @bomb dwarf.red, line 10" in lines[2]
    page.run("corewar.views.showDesk(true)")
    for name, marked in (("dwarf", ["kills", "kills", "dies"]), ("imp", ["dies"])):
        page.run("corewar.shelf.show(corewar.shelf.find(`${given[0]}.red`))", name)
        found = page.value("[...document.querySelectorAll('#editor :is(.kills, .dies)')].map(one => one.className)")
        assert [line.split()[0] for line in found] == marked
    page.run("document.querySelectorAll('#chain button')[4].click()")
    page.press("Escape")
    page.run("corewar.session.play(1)")
    assert page.value("corewar.session.chain") is None


def test_breakpoints_stop_play(page: Browser) -> None:
    """Breakpoints are set beside a line or a cell and by a command, stop both ways of playing, and are marked."""
    page.run("corewar.session.jump(0); corewar.views.showDesk(true)")
    page.until("corewar.session.isSettled")
    gutter = "[...document.querySelectorAll('.CodeMirror-linenumber')].find(one => one.textContent === '11')"
    box = page.value(f"{gutter}.getBoundingClientRect()")
    page.mouse(box["x"] + 4, box["y"] + 6, "pointerDown", "pointerUp")
    page.until("document.querySelector('#editor .break')")
    assert page.value("corewar.session.breaks.all") == [{"word": "at", "cells": [2, 2]}]
    play = "corewar.session.setRate(given[1]); corewar.session.play(given[0])"
    page.run(play, 1, 3000)
    page.until("corewar.session.way === 0 && corewar.session.turn === 4 && corewar.session.isSettled")
    page.until("document.getElementById('caption').textContent === 'Breakpoint: cell 2 is executed next.'")
    page.run("corewar.session.breaks.toggle({word: 'at', cells: [2, 2]}); corewar.session.pin(5203)")
    assert page.value("document.querySelector('#editor .break')") is None
    page.until("document.querySelector('#listing .focus .break')")
    page.click("#listing .focus .break")
    page.until("document.querySelector('#listing .focus .break').getAttribute('aria-pressed') === 'true'")
    page.run(play, 1, 20000)
    page.until("corewar.session.way === 0 && corewar.session.turn === 7797 && corewar.session.isSettled")
    page.run("corewar.session.jump(7798)")
    page.run(play, -1, 20000)
    page.until("corewar.session.way === 0 && corewar.session.turn === 7797")
    answer(page, "break changes 103")
    page.run(play, -1, 100000)
    page.until("corewar.session.way === 0 && corewar.session.turn === 147")
    page.until("document.getElementById('caption').textContent === 'Breakpoint: cell 103 was changed.'")
    answer(page, "delete all")
    page.run(play, -1, 100000)
    page.until("corewar.session.way === 0 && corewar.session.turn === 0")


def test_the_strip_is_a_picture_or_curves(page: Browser, site: str) -> None:
    """The picture is painted again for a part of the battle, and curves say how many processes there were at most."""
    code = """const {picture} = corewar.theatre.track, {columns, rows, first} = picture.frame ?? {};
      if (first === undefined || first < given[0]) return null;
      const {data} = picture.canvas.getContext("2d").getImageData(0, 0, columns, rows);
      const at = (x, y) => 4 * (Math.floor(x * columns) + columns * Math.floor(y * rows));
      const colour = (x, y) => [...data.slice(at(x, y), at(x, y) + 3)];
      return data[4 * columns - 1] ? [colour(0.9, 0.4), colour(0.9, 0.9)] : null;"""
    page.until(f"(() => {{ const given = [0]; {code} }})()")
    (red, green, blue), empty = page.run(code, 0)
    assert blue > red and blue > 60 and max(empty) < 20
    # While a battle plays, the strip follows it.
    page.run("corewar.session.stop(); corewar.theatre.track.show(7000, 7798)")
    page.until(f"(() => {{ const given = [7000]; {code} }})()")
    page.run("corewar.theatre.track.show(0, 7798)")
    page.run(
        """window.texts = [];
        const {prototype} = CanvasRenderingContext2D, {fillText} = prototype;
        prototype.fillText = function(text, ...rest) { texts.push(text); return fillText.call(this, text, ...rest) };"""
    )
    fight(page, "silk", "scanner")
    page.mouse(1, 1)
    assert float(page.value("getComputedStyle(document.getElementById('curves')).opacity")) > 0.8
    page.run("document.getElementById('curves').click()")
    # Samples may miss the turn with the most processes. The story has it, and is read after the battle is drawn.
    page.until("corewar.session.opened.events.some(({kind}) => kind === 'most')")
    most = page.value("Math.max(...corewar.session.opened.events.map(({count, kind}) => kind === 'most' ? count : 0))")
    sampled = "(await corewar.session.desk.overview(corewar.session.future, 0, corewar.session.end)).processes"
    assert most > page.run(f"return Math.max(...{sampled})")
    page.until(f"texts.includes('processes, up to {most:,}')")
    page.open(f"{site}?curves")
    page.until("window.corewar?.session.view")
    assert page.value("document.getElementById('curves').getAttribute('aria-pressed')") == "true"


def test_the_battle_uses_its_room(page: Browser) -> None:
    """The core fills the stage, what a turn did is visible, and nothing moves while it plays."""
    boxes = "['stage', 'core', 'turn-box', 'controls'].map(id => document.getElementById(id).getBoundingClientRect())"
    go_to_turn(page, 3000)
    stage, core, words, controls = page.value(boxes)
    assert core["width"] * core["height"] > 0.9 * stage["width"] * stage["height"]
    assert words["bottom"] <= 800
    page.run("corewar.session.jump(7798)")
    page.until("!document.getElementById('ending').hidden")
    after = page.value(boxes)
    assert [after[0]["height"], after[3]["height"]] == [stage["height"], controls["height"]]


def test_edits_make_futures(page: Browser) -> None:
    go_to_turn(page, 7790)
    page.run("corewar.session.pin(2); await new Promise(done => setTimeout(done, 300))")
    page.click("#listing .focus .text")
    page.press("a", held="Control")
    page.type("jmq 1")
    page.press("Enter")
    page.until("document.querySelector('#listing input')?.getAttribute('aria-invalid') === 'true'")
    assert page.value("corewar.session.futures.length") == 1
    page.press("a", held="Control")
    page.type("jmp 0")
    page.press("Enter")
    page.until("corewar.session.futures.length === 2 && corewar.session.isSettled")
    end = page.value("corewar.session.end")
    lines = native("-e", *files("dwarf", "imp"), input="run 7790\nedit 2 JMP.B $0, $0\nrun 1000000\nshow\n")
    assert f"turn {end} " in lines
    page.run("document.activeElement.blur()")
    page.press("z")
    page.until("corewar.session.end === 7798 && corewar.session.isSettled")
    page.press("y")
    page.until(f"corewar.session.end === {end} && corewar.session.isSettled")
    assert "turn 7,790: edit 2 JMP.B $0, $0" in page.text("futures")
    page.run("document.querySelector('#futures .link').click()")
    page.until("corewar.session.beside?.view && !document.getElementById('other').hidden")
    assert page.text("other-name") == "Future 0 at turn 7,790"
    bottom = "document.getElementById('%s').getBoundingClientRect().bottom"
    own, other, stage = (page.value(bottom % name) for name in ("own-name", "other-name", "stage"))
    assert max(own, other) <= stage + 1
    page.click("#alone")
    page.until("document.getElementById('other').hidden")


def test_keys_that_are_pressed_quickly(page: Browser) -> None:
    """Each press counts: leaps, undo and redo, and rounds, of which only the last one is opened."""
    fight(page, "silk", "paper")
    code = "await Promise.all(given[0].map(word => corewar.session.leap([{word}], true)))"
    page.run(code, ["splits"] * 3)
    third = page.value("corewar.session.turn")
    page.run("corewar.session.jump(0)")
    for _ in range(3):
        page.run(code, ["splits"])
    assert page.value("corewar.session.turn") == third > 0
    for address in (7000, 7001):
        answer(page, f"edit {address} jmp 0")
    page.run("const {session} = corewar; await Promise.all([session.undo(), session.undo()])")
    assert page.value("[corewar.session.future, corewar.session.before >= 0]") == [0, False]
    page.run("const {session} = corewar; await Promise.all([session.redo(), session.redo()])")
    assert page.value("corewar.session.future") == 2
    page.run("document.activeElement.blur()")
    page.press("]", "]", "]", "]")
    page.until("corewar.session.fight.round === 4 && corewar.session.view")
    # An edit that was meant for one battle is not made in the next one.
    code = """const {session} = corewar, opening = session.open({...session.fight, round: 5, edits: []});
      await corewar.console.run("edit 3 jmp 0");
      await opening;
      return document.querySelector("#answers").lastChild.textContent;"""
    assert page.run(code).endswith(": another battle has been opened")
    assert page.value("[corewar.session.fight.round, corewar.session.futures.length]") == [5, 1]


def test_a_message_stays_until_the_turn_changes(page: Browser) -> None:
    """The message stays if the battle was playing, and if the pointer moves."""
    page.run("corewar.session.jump(7700); corewar.session.setRate(20); corewar.session.play(1)")
    page.press("s")
    caption = "document.getElementById('caption').textContent"
    page.until(f"{caption}.startsWith('There is no split after turn 7,7')")
    point = page.value("corewar.theatre.core.pointOf(4000)")
    page.mouse(point["x"], point["y"])
    page.until("!document.getElementById('tip').hidden")
    assert page.value(caption).startswith("There is no split")
    page.press("Left")
    page.until(f"!{caption}.startsWith('There is no split')")


def test_a_cell_in_view_while_it_plays(page: Browser) -> None:
    """The text of the pinned cell follows the turns that are shown."""
    page.run("corewar.session.jump(0); corewar.session.pin(3)")
    text = "document.querySelector('#listing .focus .text')?.textContent"
    page.until(f"{text} === 'DAT.F #0, #0'")
    page.run("corewar.session.setRate(600); corewar.session.play(1)")
    page.until(f"corewar.session.way === 1 && {text} !== 'DAT.F #0, #0'")
    first = page.value(text)
    page.until(f"corewar.session.way === 1 && {text} !== '{first}'")


def test_an_edit_while_it_plays(page: Browser) -> None:
    """The edit is made in the turn that is shown when the line is entered, although assembling takes some time."""
    turns = page.run(
        """const session = corewar.session, found = [];
        for (let k = 0; k < 8; k++) {
            await session.showFuture(0);
            await session.jump(100 + 13 * k);
            session.play(1);
            await new Promise((done) => setTimeout(done, 40 + 17 * k));
            const shown = session.turn;
            await corewar.console.run(`edit 3000 dat 1, ${k + 1}`);
            found.push([shown, session.futures.at(-1).edits.at(-1).turn]);
        }
        return found;"""
    )
    assert [shown for shown, _ in turns] == [turn for _, turn in turns] and len(turns) == 8


def test_the_debugger_has_a_line(page: Browser) -> None:
    page.run("corewar.session.stop()")
    ask = functools.partial(answer, page)
    assert ask("c dies imp") == "the battle is over: Dwarf survives" and page.value("corewar.session.turn") == 7798
    assert ask("why") == "    line 12 of Dwarf: bomb DAT #0, #0"
    ask("rc changes 5203")
    assert page.value("corewar.session.turn") == 7797
    assert ask("until 100") == "cycle 100 is already completed in turn 7797; use goto with an earlier turn"
    ask("goto start")
    ask("until 100")
    assert page.value("corewar.session.view.cycle") == 100
    assert ask("edit bomb+1 jmp bomb") == "4: DAT.F $0, $0 -> JMP.B $-1, $0"
    assert ask("changed 4") == "Cell 4 was edited after turn 200: DAT.F $0, $0 -> JMP.B $-1, $0"
    assert ask("changed 2") == "Cell 2 has not changed since the start."
    assert ask("move imp 0 3") == "Imp: 3"
    ask("break at 3 by imp")
    assert ask("break at 2..4") == "breakpoint 1: at 2..4"
    assert ask("kill imp 1") == "Imp has no process 1; its number of processes is 1"
    assert ask("edit 3") == "expected an address and a line of source"
    ask("spawn 0 7")
    assert ask("queue dwarf").endswith(" 7")
    assert ask("futures").startswith("> 3: after turn 200")
    assert "unknown command" in ask("nonsense") and "not an address" in ask("edit 8000 nop 0")
    # Numbers may have separators, as the page shows them.
    assert ask("list 5201..5203").split()[0] == "5203"
    assert ask("list 5,203 1").split()[0] == "5203" and ask("goto 1,000") == "the battle has turns 0 to 202"
    assert ask("goto start").startswith("next: Dwarf") and ask("goto -1") == "the battle has turns 0 to 202"
    assert ask("goto +3").startswith("next: ") and page.value("corewar.session.turn") == 3 and ask("goto start")
    assert ask("list").split()[0] == str(page.value("corewar.session.view.queues.at(-1)") + 3)
    # `ask` returns only the last line of a reply.
    assert ask("explain") == "Add 4 to the B-number of bomb."
    assert ask("explain 1") == "Copy bomb to the cell pointed to by the B-number of bomb."
    assert ask("explain 4") == "End the process."
    ask("goto end")
    assert ask("explain").startswith(". is the cell to execute next, but the battle is over; use ")
    fight(page, "silk", "imp")
    go_to_turn(page, 1000)
    addresses = [ask(f"queue silk {first}") for first in (0, 20)]
    assert ask("queue Silk") == addresses[0] and len({*addresses}) == 2
    for start, line in ((0, addresses[0]), (20, addresses[1])):
        on = f", from process {start} on" * (start > 0)
        assert re.fullmatch(rf"Silk{on}:( \d+){{20}} and \d+ more: queue 0 {start + 20}", line)


REPLIES = """const list = document.getElementById("answers"), replies = [];
for (const line of given[0]) {
  list.replaceChildren();
  await corewar.console.run(line);
  replies.push([...list.children].slice(1).map(one => one.textContent));
}
return replies;"""


def terminal_replies(names: list[str], lines: list[str], width: int) -> Iterator[list[str]]:
    """Yields the replies of `corewar debug` to some lines, in a terminal of this width."""
    warriors = tuple(read(str(path), rounds=10, warriors=len(names)) for path in files(*names))
    history = History(Match(warriors, rounds=10))
    session = Session(history, Sources(history), width=lambda: width)
    for line in lines:
        try:
            yield execute(session, line)
        except CorewarError as fault:
            yield [str(fault)]


def comparable(line: str, reply: list[str]) -> list[str]:
    """Returns the part of a reply that is the same in the terminal: the page shows code without backquotes, and
    explains a death by the turns that it marks.
    """
    is_death = line.startswith("why") and " died in turn " in reply[0]
    return [text.replace("`", "") for text in reply[: 1 if is_death else None]]


def test_replies_are_those_of_the_terminal(page: Browser) -> None:
    """Good and bad lines of all commands have the replies of a terminal that is as wide as the list of replies on the
    page, also after edits.
    """
    page.run("corewar.session.stop()")
    width = page.value("corewar.session.width()")
    assert 25 < width < 50
    page.run("rounds.value = '10'; rounds.dispatchEvent(new Event('change'))")
    for part in (TOP / "tests" / "replies.txt").read_text().split("# ")[1:]:
        head, *lines = part.splitlines()
        fight(page, *head.split())
        page.run("corewar.session.breaks.set([])")
        shown = page.run(REPLIES, lines)
        for line, reply, own in zip(lines, shown, terminal_replies(head.split(), lines, width), strict=True):
            assert comparable(line, reply) == comparable(line, own), line


def test_a_warrior_may_be_called_as_a_word_of_conditions(page: Browser) -> None:
    """The name `of` in a condition is read as in `corewar debug`."""
    sources = [{"name": f"{name}.red", "text": f";name {name}\nJMP 0\n"} for name in ("of", "Stay")]
    page.run("await corewar.fight(given[0], false)", sources)
    for words in ("dies of", "dies of was MOV", "dies of and splits of", "splits of Stay", "dies Stay of of"):
        assert answer(page, f"find {words.lower()}") == f"{words}: never"
    assert answer(page, "find dies by") == answer(page, "find")


def test_labels_of_several_warriors(page: Browser) -> None:
    """A shared label requires the number of its warrior, as in `corewar debug`, also in the list beside the core."""
    fight(page, "dwarf", "scanner")
    ask = functools.partial(answer, page)
    shared = "bomb is a label of several warriors; use 0.bomb or 1.bomb"
    assert ask("list bomb") == shared and ask("edit 700 jmp bomb") == shared
    # In an edit of a cell where a warrior was loaded, the labels of this warrior need no number.
    assert ask("edit 0 jmp bomb").endswith(" -> JMP.B $3, $0") and ask("undo")
    there = page.value("corewar.session.known.addresses.get('1.bomb')")
    assert ask("list 1.bomb 1").split()[:2] == [str(there), "1.bomb"]
    assert ask("edit 2 mov 0.bomb, @1.bomb+1").endswith(f" -> MOV.I $1, @{there - 1}")
    assert ask("explain 0") == "Add 4 to the B-number of 0.bomb."
    page.run("corewar.session.pin(700); await new Promise(done => setTimeout(done, 200))")
    page.click("#listing .focus .text")
    page.type("jmp bomb")
    page.press("Enter")
    page.until(f"document.getElementById('cell-words').textContent === '{shared}'")


def test_the_line_stays_in_view(page: Browser) -> None:
    """The debugger's line is visible below replies of any length, and says how far a search in all rounds is."""
    page.run("rounds.value = '3'; rounds.dispatchEvent(new Event('change'))")
    fight(page, "dwarf", "imp")
    page.press(":")
    code = """const line = document.getElementById("line"), told = [line.placeholder];
      new MutationObserver(() => told.push(line.placeholder)).observe(line, {attributeFilter: ["placeholder"]});
      for (const text of ["show", "help", "find -r dies"]) await corewar.console.run(text);
      return [told, line.getBoundingClientRect().bottom <= innerHeight];"""
    told, is_visible = page.run(code)
    assert is_visible
    assert [text for text in told if text != told[0]] == [f"searched {count} of 3 rounds" for count in range(3)]
    assert told[-1] == told[0]


def test_the_line_is_completed(page: Browser) -> None:
    """Tab completes the line, and leaves it if there is nothing to complete."""
    page.press(" ", ":")
    line = "document.getElementById('line').value"
    page.type("conti")
    page.press("Tab")
    page.type("ch")
    page.press("Tab")
    page.type("BO")
    page.press("Tab")
    assert page.value(line) == "continue changes bomb "
    page.press("Tab")
    listed = page.value("document.querySelector('#answers').lastChild.textContent").split()
    assert {"bomb", "Dwarf", "Imp"} <= {*listed} and page.value("document.activeElement.id") == "line"
    page.press("Tab")
    assert page.value("document.activeElement.id") != "line"
    # If several lines are pasted, each is executed.
    code = """const pasted = new Event("paste", {cancelable: true});
      pasted.clipboardData = {getData: () => "goto 5\\nstep\\n\\nstep\\n"};
      document.getElementById("line").dispatchEvent(pasted);"""
    page.run(code)
    page.until("corewar.session.turn === 7 && document.querySelectorAll('#answers .asked').length === 4")


def test_a_link_carries_the_fight(page: Browser, site: str) -> None:
    go_to_turn(page, 7795)
    page.run("corewar.session.pin(2); await corewar.console.run('edit 2 jmp 0')")
    end, link = page.run("return [corewar.session.end, await shared(corewar.session)]")
    assert len(link) < 900
    page.open(f"{site}?linked#f={link}")
    page.until("window.corewar?.session.turn === 7795")
    assert page.value("[corewar.session.end, corewar.session.pinned, corewar.session.future]") == [end, 2, 1]
    damaged, other = "It is damaged or incomplete.", "It does not contain a battle."
    for broken, why in (("AAAA", damaged), ("x", damaged), ("%00", damaged), ("q1YqU7JSMlSqBQA", other)):
        page.open(f"{site}?{broken}#f={broken}")
        page.until("window.corewar?.session.view")
        assert page.text("complaint") == f"This link cannot be opened. {why}"
        assert page.value("location.hash") == ""


BACK = "history.back(); await new Promise(done => addEventListener('popstate', done, {once: true}))"


def test_views_lessons_and_rounds_have_addresses(page: Browser, site: str) -> None:
    """Going back leads to what was shown before, and an address opens what it names."""
    place = "[location.hash, ['battle', 'bench', 'learn'].find(id => !document.getElementById(id).hidden)]"
    go_to_turn(page, 4000)
    page.click("[data-view=bench]")
    page.click("[data-view=learn]")
    assert page.value(place) == ["#learn", "learn"]
    page.run(BACK)
    assert page.value(place) == ["#bench", "bench"]
    page.run(BACK)
    assert page.value(place) == ["", "battle"] and page.value("corewar.session.turn") == 4000
    page.run("corewar.round(1)")
    page.until("location.hash === '#battle/1'")
    page.run("await corewar.lessons.begin(corewar.lessons.lessons[4])")
    assert page.value(place) == ["#learn/5", "battle"]
    page.run(BACK)
    page.until("corewar.session.fight.round === 1 && document.getElementById('lesson-box').hidden")
    for hash, shown in (
        ("#learn/5", "corewar.lessons.current === 5"),
        ("#battle/3", "corewar.session.fight.round === 3"),
    ):
        page.open(f"{site}?{hash[1:]}{hash}")
        page.until(f"window.corewar?.session.view && {shown}")
        assert page.value(place) == [hash, "battle"]
    page.open(f"{site}?view#bench")
    page.until("window.corewar?.session.view")
    assert page.value(place) == ["#bench", "bench"]


def test_loading_again_keeps_the_place(page: Browser) -> None:
    """The lesson, the battle with its edits, and the turn are the same after the page is loaded again."""
    page.run("await corewar.lessons.begin(corewar.lessons.lessons[2])")
    go_to_turn(page, 500)
    answer(page, "edit 3 jmp 0")
    known = "[location.hash, corewar.lessons.current, corewar.session.turn, corewar.session.end, corewar.session.way]"
    before = page.value(known)
    names = page.value("corewar.session.known.names")
    # Breakpoints stay, and all rounds are fought again.
    assert answer(page, "break dies 0") == f"breakpoint 0: dies {names[0]}"
    page.run("await corewar.rounds.fight()")
    tally = page.text("tally")
    page.until("history.state.turn === 500 && history.state.fight.edits.length === 1 && history.state.hasRounds")
    page.run("window.isOld = true; location.reload()")
    page.until("!window.isOld && window.corewar?.session.isSettled")
    assert page.value(known) == before and before[:3] == ["#learn/3", 3, 500]
    assert page.value("corewar.session.known.names") == names
    assert answer(page, "break") == f"breakpoint 0: dies {names[0]}"
    page.until(f"document.getElementById('tally').textContent === {json.dumps(tally)}")
    page.run("document.querySelector('#lesson-box > .link').click()")
    assert page.value("location.hash") == ""
    # What another version of the page wrote is left out.
    page.run("history.replaceState({fight: 7}, ''); window.isOld = true; location.reload()")
    page.until("!window.isOld && window.corewar?.session.isSettled")
    assert page.text("complaint") == ""


SHOWN = "['stage', 'track', 'play', 'top', 'side', 'desk', 'rewind', 'leaps'].filter(id => %s)"
SHOWN %= "document.getElementById(id).checkVisibility()"


def test_a_battle_is_embedded(page: Browser, site: str, tmp_path: Path) -> None:
    """A link or a page in one file, if embedded, shows only the core, the strip and Play; Share copies the code."""
    go_to_turn(page, 4000)
    link = page.run("return shared(corewar.session)")
    page.click("#share")
    page.until("document.getElementById('sharing').open")
    page.click("#copy-embed")
    page.until("document.getElementById('link').value.startsWith('<iframe src=\"Dwarf-Imp.html#embed\" title=')")
    page.open(f"{site}?embed#embed&f={link}")
    page.until("window.corewar?.session.turn === 4000 && corewar.session.isSettled")
    assert page.value(SHOWN) == ["stage", "track", "play"] and page.value("corewar.session.way") == 0
    boxes = "['stage', 'core'].map(id => document.getElementById(id).getBoundingClientRect())"
    try:
        # Firefox has no windows that are narrower.
        page.resize(500, 400)
        page.until("document.documentElement.scrollWidth <= innerWidth && document.documentElement.scrollHeight <= 400")
        stage, core = page.value(boxes)
        assert core["height"] > 150 and stage["bottom"] <= 400
        track, play = page.value(boxes.replace("'stage', 'core'", "'track', 'play'"))
        assert stage["bottom"] <= track["top"] and track["bottom"] <= play["top"] and play["bottom"] <= 400
    finally:
        page.resize(1280, 800)
    text = page.run("return pageWith(await shared(corewar.session))")
    (tmp_path / "Dwarf-Imp.html").write_text(text, encoding="utf-8")
    page.open(f"file://{tmp_path}/Dwarf-Imp.html#embed")
    page.until("window.corewar?.session.turn === 4000 && corewar.session.isSettled")
    assert page.value(SHOWN) == ["stage", "track", "play"]
    page.open("about:blank")


def test_a_link_that_only_this_machine_can_open(page: Browser) -> None:
    """Share shows no address of this machine."""
    page.click("#share")
    page.until("document.getElementById('sharing').open")
    assert page.value("document.getElementById('link').value.slice(0, 3)") == "#f="
    assert "save it as a file" in page.text("link-note")


def test_strangers_names_are_no_html(page: Browser, site: str) -> None:
    evil = "<img src=x onerror=alert(1)>"
    source = f";name {evil}\n;author {evil}\n{evil} MOV 0, 1\nx MOV 0, 1\n;{evil}\n"
    code = """const fight = {...corewar.session.fight, warriors: given[0].map(text => ({name: given[1], text}))};
      const copy = {...corewar.session, fight, opened: {edits: []}, turn: 5, pinned: 1};
      return shared(copy);"""
    link = page.run(code, [source, source.replace(f"{evil} MOV", "y MOV")], evil)
    page.open(f"{site}?evil#f={link}")
    page.until("window.corewar?.session.view")
    assert "line 3" in page.text("complaint")
    link = page.run(code, [f";name {evil}\n;author {evil}\nx MOV 0, 1\n"] * 2, f"{evil}.red")
    page.open(f"{site}?evil2#f={link}")
    page.until("window.corewar?.session.view && corewar.session.isSettled")
    page.run("document.getElementById('sources').click(); await corewar.rounds.fight()")
    assert evil in page.value("document.title")
    assert page.value("document.querySelectorAll('img').length") == 0


def test_the_list_has_the_names_of_warriors(page: Browser) -> None:
    """The list shows the names of warriors, by which the rest of the page knows sources."""
    page.press("e")
    names = "[...document.querySelectorAll('#names button')].map(one => one.textContent)"
    found = page.value(names)
    assert {"dwarf", "scanner Lookout", "vampire Dusk"} <= {*found}
    page.run("corewar.shelf.show(corewar.shelf.find('scanner.red'))")
    top = page.value("document.getElementById('editor').getBoundingClientRect().top")
    page.run(
        "const {mirror} = corewar.shelf.editor; mirror.setValue(mirror.getValue().replace('Lookout', 'Far Sight'))"
    )
    page.until(f"{names}.includes('scanner • Far Sight')")
    # The text that is edited stays in its place, also when the button that restores the example appears.
    page.until("!document.getElementById('restore').hidden")
    assert page.value("document.getElementById('editor').getBoundingClientRect().top") == top


def test_the_editor_shows_errors_and_fights(page: Browser, site: str) -> None:
    page.press("e")
    page.run(
        "const {mirror} = corewar.shelf.editor; mirror.setValue(given[0])",
        "x MVO 0, 1\n MOV 0, bom\n JMP x, 1 1\nbomb DAT 0, 5/0 ; 5\n",
    )
    page.until("document.getElementById('fault').classList.contains('bad')")
    assert "did you mean MOV?" in page.text("fault") and "did you mean bomb (line 4)?" in page.text("fault")
    assert page.value("[...document.querySelectorAll('.CodeMirror .fault')].map(one => one.textContent)") == [
        "MVO",
        "bom",
        "1",
        "5",
    ]
    page.click("#fault button:nth-of-type(2)")
    code = (
        "const {mirror} = corewar.shelf.editor, {line, ch} = mirror.getCursor(); return [line, ch, mirror.hasFocus()]"
    )
    assert page.run(code) == [1, 8, True]
    page.click("#fault button:nth-of-type(3)")
    assert page.run(code) == [2, 10, True]
    page.run("corewar.shelf.editor.mirror.setValue(given[0]); corewar.shelf.editor.mirror.focus()", "MOV 0, 1 ; mine\n")
    page.until("!document.getElementById('fault').classList.contains('bad')")
    page.press("Enter", held="Control")
    page.until("corewar.session.fight.warriors[0].text === 'MOV 0, 1 ; mine\\n'")
    page.run("await new Promise(done => setTimeout(done, 600))")
    page.open(f"{site}?again")
    page.until("window.corewar?.session.view")
    assert page.value("corewar.session.fight.warriors[0].text") == "MOV 0, 1 ; mine\n"


def test_the_editor_helps(page: Browser) -> None:
    """The editor completes words, indents new lines, makes comments, finds texts and explains opcodes."""
    page.run("corewar.session.stop(); corewar.views.showDesk(true)")
    mirror = "corewar.shelf.editor.mirror"
    page.run(
        f"{mirror}.setValue(given[0]); {mirror}.focus(); {mirror}.setCursor(1, 99)", "bomb    DAT     0\n        NOP\n"
    )
    page.press("Enter")
    page.type("go")
    page.press("Tab")
    page.type("mo")
    words = "[...document.querySelectorAll('#completions:not([hidden]) b')].map(one => one.textContent).join(' ')"
    page.until(f"{words} === 'mov mod'")
    page.press("Tab")
    page.type(".")
    page.until(f"{words} === 'a b ab ba f x i'")
    page.press("Down", "Down", "Tab")
    page.type(" #1, bo")
    page.until(f"{words} === 'bomb'")
    page.press("Tab")
    assert page.value(f"{mirror}.getLine(2)") == "go      mov.ab #1, bomb"
    # Enter takes a word only if one was selected.
    page.type(" ;x")
    page.press("Enter")
    page.type("m")
    page.until(f"{words} === ''")
    page.press(" ", held="Control")
    page.until(f"{words} === 'mov mul mod'")
    page.press("Escape")
    page.until(f"{words} === ''")
    page.press("/", held="Control")
    page.press("Up")
    page.press("/", held="Control")
    assert page.value(f"[{mirror}.getLine(2), {mirror}.getLine(3)]") == [";go      mov.ab #1, bomb ;x", ";m"]
    page.press("/", held="Control")
    assert page.value(f"{mirror}.getLine(2)") == "go      mov.ab #1, bomb ;x"
    page.press("f", held="Control")
    page.type("BOMB")
    page.until("document.getElementById('found').textContent === '2 found'")
    page.press("Enter")
    first = page.value(f"{mirror}.getCursor().line")
    page.click("#find-on")
    assert {first, page.value(f"{mirror}.getCursor().line")} == {0, 2}
    assert page.value(f"{mirror}.getSelection()") == "bomb"
    assert page.text("found") == ("1 of 2" if first else "2 of 2")
    page.click("#find-back")
    assert page.value(f"{mirror}.getCursor().line") == first
    page.run("const field = document.getElementById('find'); field.value = 'bomber'; field.focus(); field.oninput()")
    assert page.text("found") == "not found"
    page.press("Escape")
    assert page.value("document.getElementById('finder').hidden && !!document.activeElement.closest('#editor')")
    page.click("#words")
    assert "JMZjumps to A if B is zero" in page.text("cheat-words")
    page.click("#cheat button")


def test_the_editor_has_room(page: Browser, site: str) -> None:
    """At least 60 characters of a line are visible in a usual window, and a divider stays where it is put."""
    page.run("corewar.views.showDesk(true)")
    width = """const [editor, gutters] = ["", "-gutters"].map(part => document.querySelector(`.CodeMirror${part}`));
      return (editor.clientWidth - gutters.offsetWidth) / corewar.shelf.editor.mirror.defaultCharWidth()"""
    assert page.run(width) >= 60
    page.run("document.getElementById('divider').focus()")
    page.press("Left", "Left")
    narrower = page.run(width)
    assert narrower < 60
    page.open(f"{site}?divider")
    page.until("window.corewar?.session.view")
    assert page.run(width) == pytest.approx(narrower, abs=0.2)


def test_details_are_a_tab_beside_the_editor(page: Browser) -> None:
    """The core keeps its room in a usual window. The tab with what is looked at is shown, and a lesson is shown beside
    the editor.
    """
    shown = "['desk', 'side', 'lesson-box', 'core'].filter(id => document.getElementById(id).checkVisibility())"
    go_to_turn(page, 7798)
    assert page.value(shown) == ["side", "core"]
    page.run("corewar.views.showDesk(true)")
    assert page.value(shown) == ["desk", "core"] and page.value("document.getElementById('core').offsetWidth") > 600
    point = page.value("corewar.theatre.core.pointOf(3)")
    page.mouse(point["x"], point["y"], "pointerDown", "pointerUp")
    page.until(f"{shown}.join() === 'side,core' && corewar.session.pinned === 3")
    page.click("#tabs [data-tab=code]")
    page.click("#why-now")
    page.until(f"{shown}.join() === 'side,core' && corewar.session.chain")
    # The middle of a link that is on two lines may be outside of it.
    page.run("document.querySelector('#chain .source .link').click()")
    page.until(f"{shown}.join() === 'desk,core'")
    page.run("await corewar.lessons.begin(corewar.lessons.lessons[4])")
    assert page.value(shown) == ["desk", "side", "lesson-box", "core"]
    try:
        page.resize(1600, 900)
        page.run("document.querySelector('#lesson-box > .link').click()")
        page.until(f"{shown}.join() === 'desk,side,core'")
    finally:
        page.resize(1280, 800)


def test_a_source_that_takes_minutes(page: Browser) -> None:
    """The worker that assembles the source is ended, and the page continues to work: in the editor, and in a fight."""
    page.run("corewar.shelf.show(corewar.shelf.add({name: 'slow.red', text: given[0]}))", slow())
    page.until("document.getElementById('fault').textContent.includes('takes too long')")
    turn = page.value("corewar.session.turn")
    page.until(f"corewar.session.turn !== {turn}")
    page.run("corewar.shelf.show(corewar.shelf.find('dwarf.red'))")
    page.until("document.getElementById('fault').textContent.includes('Dwarf: 4 of 100 cells')")
    go_to_turn(page, 7798)
    answer(page, "edit 3 dat 0, 0")
    page.run("corewar.session.undo()")
    page.run("corewar.fight([{name: 'slow.red', text: given[0]}])", slow())
    page.until("document.getElementById('complaint').textContent === 'This takes too long and was stopped.'")
    go_to_turn(page, 7797)
    go_to_turn(page, 7798)
    assert "Imp is dead" in page.text("turn-words")
    # The futures of the battle are still there.
    page.run("await corewar.session.redo()")
    assert page.value("[corewar.session.future, corewar.session.view.cells[9]]") == [1, 0x1010400]


def test_sources_are_checked_in_turn(page: Browser) -> None:
    """The result of a check is not shown if the next source has been checked before it comes."""
    code = """const {pool, shelf} = corewar, ask = pool.ask.bind(pool);
      const wait = ms => new Promise(done => setTimeout(done, ms));
      pool.ask = async (...given) => {
        const made = await ask(...given);
        if (given[1][0].includes?.("Tailor")) await wait(300);
        return made;
      };
      for (const name of ["fitted.red", "dwarf.red"]) shelf.show(shelf.find(name));
      await wait(900);"""
    page.run(code)
    assert page.text("fault") == "Dwarf: 4 of 100 cells"


# Terms whose minimum distance is less than the maximum length.
INVALID = {
    "settings": {"core": 8000, "processes": 8, "cycles": 80, "longest": 100, "distance": 1},
    "seed": 1,
    "rounds": 100,
    "position": 0,
    "formula": "W",
}


def test_a_source_with_errors_has_no_cells(page: Browser) -> None:
    """Nothing of the previous source is shown for it, and the error of settings that are not valid names no line."""
    page.press("e")
    page.until("document.getElementById('load').textContent.startsWith(';load')")
    page.run("corewar.shelf.show(corewar.shelf.add({name: 'broken.red', text: 'MVO 0, 1'}))")
    page.until("document.getElementById('fault').textContent.includes('did you mean MOV?')")
    assert page.text("load") == ""
    line = page.value("document.querySelector('.CodeMirror-line').getBoundingClientRect()")
    page.mouse(line["x"] + 20, line["y"] + 5)
    page.run("await new Promise(done => setTimeout(done, 100))")
    assert page.value("document.getElementById('line-tip').hidden")
    page.run("corewar.shelf.show(corewar.shelf.find('dwarf.red')); corewar.terms.value = given[0]", INVALID)
    page.run("await corewar.shelf.lint()")
    assert page.text("fault").endswith("cannot be assembled. These core settings are not valid together.")


def test_a_page_shows_a_battle_whatever_is_stored(page: Browser, site: str) -> None:
    page.run("localStorage.setItem('corewar', JSON.stringify({terms: given[0]}))", INVALID)
    page.open(f"{site}?invalid")
    page.until("window.corewar?.session.view && !document.getElementById('complaint').hidden")
    assert page.text("complaint") == "These core settings are not valid together."
    assert page.value("document.title") == "Dwarf against Imp · Core War"
    assert page.value("hill.value") == "94nop"


@pytest.mark.parametrize(
    "stored",
    ["{", "null", "5", "[]", '{"sources":5}', '{"sources":[null,7]}', '{"terms":{"settings":7}}', '{"done":{}}'],
)
def test_damaged_storage_is_left_out(page: Browser, site: str, stored: str) -> None:
    """The page starts whatever is stored, names what is damaged, and deletes that and nothing else on request."""
    page.run("localStorage.clear(); localStorage.setItem('corewar', given[0])", stored)
    page.run("localStorage.setItem('corewar; league', given[0])", stored)
    # In other.red only the text is sound, and the text is what counts.
    for name, kept in (("own", '{"text":7}'), ("other", '{"text":"MOV 0, 1","saved":7,"kind":"x"}')):
        page.run("localStorage.setItem(`corewar: ${given[0]}.red`, given[1])", name, kept)
    page.open(f"{site}?damaged{hash(stored)}")
    page.until("window.corewar?.session.view")
    start = "Something that this browser had stored is damaged and was left out: settings, own.red, league."
    assert page.text("complaint").startswith(start)
    page.click("#complaint button")
    page.until("document.getElementById('complaint').hidden")
    kept = "['own', 'other'].map(name => localStorage.getItem(`corewar: ${name}.red`) !== null)"
    assert page.value(kept) == [False, True] and page.value("localStorage.getItem('corewar; league')") is None
    page.open(f"{site}?mended{hash(stored)}")
    page.until("window.corewar?.session.view")
    assert page.text("complaint") == "" and page.value("corewar.shelf.find('other.red').doc.getValue()") == "MOV 0, 1"


def test_sources_with_names_of_examples_are_kept(page: Browser, site: str) -> None:
    """The page keeps an example that this version lacks, and an own source whose name a new example has, too."""
    for name, kind in (("gone", "example"), ("silk", "own")):
        kept = f'{{"text":"MOV 0, 1 ; {name}","saved":"","kind":"{kind}","made":1}}'
        page.run("localStorage.setItem(`corewar: ${given[0]}.red`, given[1])", name, kept)
    for visit in range(2):
        page.open(f"{site}?names{visit}")
        page.until("window.corewar?.session.view")
        for name in ("gone", "silk"):
            found = page.value(f"corewar.shelf.find('{name}.red')?.doc.getValue()")
            assert found == f"MOV 0, 1 ; {name}"
        page.run("corewar.sources.keep()")


def test_sources_of_earlier_versions_are_found(page: Browser, site: str) -> None:
    old = [
        {"name": "dwarf.red", "text": "old", "saved": "old", "isExample": True, "fights": False},
        {"name": "imp.red", "text": "MOV 0, 1 ; mine", "saved": "MOV 0, 1", "isExample": True, "fights": True},
        {"name": "own.red", "text": "MOV 0, 1 ; own", "saved": "", "isExample": False, "fights": True},
    ]
    page.run("localStorage.clear(); localStorage.setItem('corewar', JSON.stringify({sources: given[0]}))", old)
    page.open(f"{site}?earlier")
    page.until("window.corewar?.session.view")
    assert page.value("corewar.session.fight.warriors.map(({name}) => name)") == ["imp.red", "own.red"]
    assert page.value("corewar.shelf.find('imp.red').doc.getValue()") == "MOV 0, 1 ; mine"
    # Copies of examples that were not changed do not hide the examples of this version.
    assert "Dwarf" in page.value("corewar.shelf.find('dwarf.red').doc.getValue()")


@pytest.fixture
def pair(browser: Browser, tmp_path: Path) -> Iterator[Browser]:
    """Yields a page with two windows of the site, as frames."""
    for path in (TOP / "build" / "site").iterdir():
        (tmp_path / path.name).symlink_to(path)
    frames = "".join(f'<iframe src="index.html?{name}" width=1200 height=700></iframe>' for name in "ab")
    (tmp_path / "pair.html").write_text(f'<!DOCTYPE html><link rel="icon" href="data:,">{frames}')
    with served(tmp_path) as address:
        browser.open(f"{address}/pair.html")
        browser.until("[0, 1].every(one => frames[one].corewar?.session.view)")
        yield browser
        browser.open("about:blank")


def test_two_windows_lose_nothing(pair: Browser) -> None:
    """What one window stores stays if the other one stores something else, and appears there."""
    page = pair
    code = """const {shelf} = frames[given[0]].corewar;
      shelf.show(shelf.find(given[1]));
      shelf.editor.mirror.setValue(given[2]);"""
    page.run("frames[0].document.getElementById('new').click()")
    page.run(code, 0, "warrior.red", "MOV 0, 1 ; one")
    page.until("frames[1].corewar.shelf.find('warrior.red')?.doc.getValue() === 'MOV 0, 1 ; one'")
    page.run("frames[1].document.querySelector('#names input').click(); frames[1].corewar.another()")
    page.run(code, 1, "silk.red", "MOV 0, 1 ; two")
    page.until("frames[0].corewar.shelf.find('silk.red').doc.getValue() === 'MOV 0, 1 ; two'")
    page.run(code, 1, "warrior.red", "MOV 0, 1 ; changed")
    page.until("frames[0].corewar.shelf.find('warrior.red').doc.getValue() === 'MOV 0, 1 ; changed'")
    # Of two changes of a source at once both stay.
    both = """given[0].forEach((text, index) => {
        const {shelf} = frames[index].corewar;
        shelf.show(shelf.find("warrior.red"));
        shelf.editor.mirror.setValue(text);
      });"""
    page.run(both, ["MOV 0, 2 ; here", "MOV 0, 3 ; there"])
    texts = (
        "frames[%d].corewar.shelf.sources.map(({doc}) => doc.getValue()).filter(text => / ; t?here/.test(text)).sort()"
    )
    page.until(f"[0, 1].every(one => one >= 0) && {texts % 0}.length === 2 && {texts % 1}.length >= 1")
    page.run("await new Promise(done => setTimeout(done, 900)); window.isOld = true; location.reload()")
    page.until("!window.isOld && [0, 1].every(one => frames[one]?.corewar?.session.view)")
    assert page.value(texts % 0) == ["MOV 0, 2 ; here", "MOV 0, 3 ; there"] == page.value(texts % 1)


def test_what_a_link_brings_is_stored_once_it_is_changed(page: Browser, site: str) -> None:
    """Neither the sources nor the terms of a link are stored, except for what the user changes."""
    fight = """const fight = {...corewar.session.fight, formula: given[0], rounds: 7, warriors: given[1]};
      return shared({...corewar.session, fight, opened: {edits: []}, turn: 5, pinned: null});"""
    sources = [{"name": f"{name}.red", "text": f";name {name}\nMOV 0, 1\n"} for name in ("Anna", "Bert")]
    link = page.run(fight, "W*S", sources)
    page.open(f"{site}?guests#f={link}")
    page.until("window.corewar?.session.view && document.title === 'Anna against Bert · Core War'")
    names = "corewar.shelf.sources.map(({name}) => name).filter(name => /^(Anna|Bert)/.test(name))"
    assert page.value(names) == ["Anna.red", "Bert.red"]
    page.run("corewar.shelf.show(corewar.shelf.find('Bert.red'))")
    page.run("corewar.shelf.editor.mirror.setValue(';name Bert\\nMOV 0, 1 ; mine\\n')")
    page.run("seed.value = '9'; seed.dispatchEvent(new Event('change'))")
    page.until("Object.keys(localStorage).includes('corewar: Bert.red')")
    page.run("await corewar.another()")
    assert page.value(names) == ["Bert.red"]
    page.open(f"{site}?after")
    page.until("window.corewar?.session.view")
    assert page.value(names) == ["Bert.red"]
    assert page.value("[corewar.terms.value.seed, corewar.terms.value.rounds]") == [9, 100]
    assert page.value("corewar.terms.value.formula") == "(W*W-1)/S"
    # A wrong formula is found before the battle is opened.
    page.open(f"{site}?wrong#f={page.run(fight, 'W/', sources)}")
    page.until("window.corewar?.session.view")
    assert page.text("complaint") == "This link cannot be opened. The score formula is not valid."


def test_a_lesson_leaves_the_list_as_it_was(page: Browser, site: str) -> None:
    """The learner's source is found again in the lesson."""
    names = "corewar.shelf.sources.map(({name}) => name).join()"
    before = page.value(names)
    begin = "await corewar.lessons.begin(corewar.lessons.lessons[given[0]])"
    page.run(begin, 4)
    assert page.value(names) != before
    own = page.value("corewar.shelf.shown.name")
    page.run("corewar.shelf.editor.mirror.setValue('MOV 0, 1 ; solved')")
    page.until("localStorage.getItem(`corewar: ${given[0]}`)".replace("given[0]", f"'{own}'"))
    page.run(begin, 1)
    assert page.value(names) == before
    page.open(f"{site}?lesson")
    page.until("window.corewar?.session.view")
    assert page.value(names) == before
    page.run(begin, 4)
    assert page.value("corewar.shelf.shown.doc.getValue()") == "MOV 0, 1 ; solved"


def test_examples_are_restored(page: Browser, site: str) -> None:
    page.press("e")
    page.run("corewar.shelf.show(corewar.shelf.find('silk.red'))")
    page.run("window.before = corewar.shelf.shown.doc.getValue(); corewar.shelf.editor.mirror.setValue('DAT 0')")
    page.until("!document.getElementById('restore').hidden")
    page.click("#restore")
    page.until("corewar.shelf.shown.doc.getValue() === before")
    page.click("#remove")
    assert page.value("!corewar.shelf.find('silk.red')")
    page.open(f"{site}?restore")
    page.until("window.corewar?.session.view")
    assert page.text("restore") == "Restore 1 example" and page.value("!corewar.shelf.find('silk.red')")
    page.click("#restore")
    assert page.value("document.getElementById('restore').hidden && !!corewar.shelf.find('silk.red')")


def test_opening_a_battle_is_cancelled(page: Browser) -> None:
    """The battle that was shown before stays, with its futures."""
    answer(page, "edit 3 jmp 0")
    page.run("window.opening = corewar.fight([{name: 'slow.red', text: given[0]}])", slow())
    page.until("!document.getElementById('waiting').hidden")
    page.click("#cancel")
    page.run("await opening")
    assert page.text("complaint") == "Cancelled." and page.value("document.getElementById('waiting').hidden")
    go_to_turn(page, 100)
    assert page.value("[corewar.session.futures.length, document.title]") == [2, "Dwarf against Imp · Core War"]


def test_workers_that_are_blocked(browser: Browser) -> None:
    """The page says that the simulator does not start, although its workers fail before anything is asked of them."""
    with served(TOP / "build" / "site", Strict) as address:
        browser.open(f"{address}/index.html")
        browser.until("!document.getElementById('complaint').hidden")
        assert browser.text("complaint") == "A worker does not start."
        assert browser.text("loading") == "The simulator does not start."
    browser.open("about:blank")
    browser.errors()


def test_a_surprise_has_a_seed_of_its_own(page: Browser) -> None:
    seeds = page.run(
        """const seeds = [];
        for (let k = 0; k < 4; k++) {
            await corewar.another();
            seeds.push(corewar.session.fight.seed);
        }
        return [...seeds, Number(seed.value)];"""
    )
    assert len({*seeds}) > 1 and seeds[3] == seeds[4]


def test_a_source_without_instructions(page: Browser) -> None:
    page.press("e")
    page.run("corewar.shelf.editor.mirror.setValue('; nothing')")
    page.until("document.getElementById('fault').classList.contains('bad')")
    assert not page.text("fault").startswith("Line")


def test_a_browser_that_stores_nothing(page: Browser) -> None:
    """The page works, and doesn't claim that sources are stored."""
    page.press("e")
    page.run("corewar.shelf.show(corewar.shelf.find('silk.red'))")
    code = "const {mirror} = corewar.shelf.editor; mirror.setValue(mirror.getValue() + '; more\\n')"
    page.run(code)
    page.until("document.getElementById('saved').textContent.startsWith('Stored in this browser')")
    page.run(f"Storage.prototype.setItem = () => {{ throw new Error('full') }}; {code}")
    page.until("document.getElementById('saved').textContent.startsWith('Not stored in this browser')")


def test_control_and_enter_start_one_battle(page: Browser) -> None:
    page.press("e")
    page.run(
        """window.opened = 0;
        const open = corewar.session.open.bind(corewar.session);
        corewar.session.open = (...given) => { window.opened++; return open(...given); };"""
    )
    page.press("Enter", held="Control")
    page.until("corewar.session.turn > 0")
    assert page.value("[window.opened, corewar.shelf.shown.doc.getValue() === corewar.shelf.shown.saved]") == [1, True]


def test_what_is_scrolled_and_opened_keeps_its_keys(page: Browser) -> None:
    page.press(" ")
    page.run("document.querySelectorAll('#lessons .lesson button')[1].click()")
    page.until("document.querySelector('#lesson-box summary') && corewar.session.way === 1")
    page.run("document.querySelector('#lesson-box summary').focus()")
    page.press(" ")
    assert page.value("[document.querySelector('#lesson-box details').open, corewar.session.way]") == [True, 1]
    rate = page.value("corewar.session.rate")
    page.run("document.getElementById('answers').focus()")
    page.press("Up")
    assert page.value("corewar.session.rate") == rate


def test_a_new_source_fights(page: Browser) -> None:
    """A new source is selected in place of the source that was shown, and so is a source that is opened from a file."""
    page.run("document.getElementById('new').click(); document.getElementById('fight').click()")
    page.until("document.title === 'Imp against My first warrior · Core War'")
    page.run("await corewar.shelf.take([new File([';name Mine\\nMOV 0, 1'], 'mine.txt')])")
    page.run("document.getElementById('fight').click()")
    page.until("document.title === 'Imp against Mine · Core War'")


def test_files_are_opened(page: Browser) -> None:
    """The page opens sources, load files, and files that are not UTF-8."""
    code = """await corewar.shelf.take([new File([new Uint8Array(given[1])], given[0])]);
      await corewar.shelf.lint();
      return [corewar.shelf.shown.name, document.getElementById('fault').textContent];"""
    stone = b";name St\xe9ne\nadd #5, 3\nmov 2, @2\njmp -2\ndat 0, 0\n"
    # Names are those of the source, as in the list, although the library knows only ASCII.
    assert page.run(code, "stone.red", [*stone]) == ["stone.red", "Sténe: 4 of 100 cells"]
    page.run("await corewar.fightMarked()")
    assert "Sténe" in page.value("corewar.session.known.names")
    load = native("--load", *files("dwarf"))
    assert page.run(code, "dwarf.load", [*load.encode()]) == ["dwarf.load.red", "Dwarf: 4 of 100 cells"]
    assert page.text("load") == load
    assert page.run(code, "large.red", [59] * 1_048_577)[0] == "dwarf.load.red"
    assert "too large" in page.text("saved")


def table(*words: object) -> list[list[int]]:
    """Returns the points, wins, ties and losses of each row of a table of the program."""
    lines = native("-b", *words).splitlines()[1:]
    return [[int(number) for number in line.split()[:4]] for line in lines]


def test_rounds_are_those_of_the_program(page: Browser) -> None:
    fight(page, "scanner", "bomber")
    page.run("await corewar.rounds.fight()")
    found = re.findall(r"(\d+) wins?, (\d+) ties?, (\d+) loss", page.text("tally"))
    rows = table("-r", 100, *files("scanner", "bomber"))
    assert [[*map(int, one)] for one in found] == [row[1:] for row in rows]
    assert re.search(r"\d+× Lookout died on its line \d+, hit by line \d+ of Hail", page.text("why"))
    reasons = page.value("[...document.querySelectorAll('#why li')].map(one => one.textContent.split('×')[1])")
    assert len({*reasons}) == len(reasons) > 1
    page.click("#strip button:nth-child(8)")
    page.until("corewar.session.fight.round === 7 && document.querySelectorAll('#strip [aria-current]').length === 1")
    # The rounds stay if the battle is edited, also after the shelf has named the sources of a link.
    page.run("corewar.session.rename(corewar.session.fight.warriors.map(({text}, at) => ({name: `${at}.red`, text})))")
    answer(page, "edit 3 jmp 0")
    assert page.value("document.querySelectorAll('#strip button').length") == 100


# How the package writes what the page says on a death.
WORDS = [
    (r"^in empty memory$", "empty core"),
    (r"^on its (line \d+)$", r"its \1"),
    (r"^on (line \d+) of (\w+)$", r"\2's \1"),
    (r"^(line \d+) of (\w+)$", r"\2, by \1"),
    (r", by (line \d+) of (\w+)$", r", by \2's \1"),
]


def test_deaths_are_those_of_the_package(page: Browser) -> None:
    """What was hit and what hit it is the same as by `corewar why -r 100`, also beyond the reasons that are shown."""
    names, warriors = ["Hail", "Silk"], [read(EXAMPLES / f"{name}.red") for name in ("bomber", "silk")]
    deaths = [death for death in fates(Match(warriors, rounds=100)) if isinstance(death, Death)]
    ways = Counter((names[one.warrior], one.cell.split(":")[0], one.by.split(":")[0]) for one in deaths)
    fight(page, "bomber", "silk")
    page.run("await corewar.rounds.fight()")
    *reasons, rest = page.value("[...document.querySelectorAll('#why li')].map(one => one.textContent)")
    for reason in reasons:
        found = re.fullmatch(r"(\d+)× (\w+) died (.*), hit by (.*)", reason)
        assert found, reason
        cell, by = (functools.reduce(lambda text, rule: re.sub(*rule, text), WORDS, found[part]) for part in (3, 4))
        assert ways.pop((found[2], cell, by)) == int(found[1]), reason
    assert rest == f"{sum(ways.values())}× in {len(ways)} other ways"


def test_the_bench_is_the_program(page: Browser) -> None:
    page.click("[data-view=bench]")
    page.until("document.querySelectorAll('#bench-rows .stack').length === corewar.examples.length - 1")
    rows = page.value(
        "[...corewar.bench.rows].map(([name, row]) => [name, row.points, row.wins, row.ties, row.losses])"
    )
    for name, *counts in rows[::4]:
        assert table("-r", 100, EXAMPLES / "dwarf.red", EXAMPLES / name)[0] == counts, name


def change(seed: int, files: list[object]) -> tuple[list[float], str]:
    """Returns the change from the first file to the second one against the others, its error, and the verdict."""
    words = ["challenge", "--old", files[0], "--sum", "-r", 40, "--seed", seed, *files[1:]]
    done = subprocess.run([*COMMAND, *map(str, words)], env=ENVIRONMENT, capture_output=True, text=True, check=True)
    _, row, verdict = done.stdout.splitlines()
    return [float(number) / 100 for number in row.split()[2:4]], verdict


def test_versions_on_the_bench(page: Browser, tmp_path: Path) -> None:
    """Two versions are compared as by `corewar challenge --old`, and again after the terms have changed."""
    names = sorted(path for path in EXAMPLES.glob("*.red") if path.stem != "dwarf")
    page.run("rounds.value = '40'; rounds.dispatchEvent(new Event('change'))")
    page.click("[data-view=bench]")
    done = "document.getElementById('bench-note').textContent.endsWith(' ms')"
    page.until(f"{done} && corewar.bench.rows.size === {len(names)}")
    assert page.text("bench-change") == ""
    page.click("#bench-base")
    page.until("document.getElementById('bench-change').textContent.includes('score the same in every round')")
    for seed in (1, 9):
        text = f";name Stride {seed}\nloop ADD #2364, bomb\nMOV bomb, @bomb\nJMP loop\nbomb DAT #0, #0\n"
        (tmp_path / "stride.red").write_text(text)
        code = f"seed.value = '{seed}'; seed.dispatchEvent(new Event('change'));"
        page.run(f"{code} corewar.shelf.editor.mirror.setValue(given[0])", text)
        page.until(f"document.getElementById('bench-title').textContent === 'Stride {seed}' && {done}")
        numbers, verdict = change(seed, [EXAMPLES / "dwarf.red", tmp_path / "stride.red", *names])
        message = page.text("bench-change")
        found = re.match(r"Change from the baseline: ([+−]\d+\.\d\d), error (\d+\.\d\d)\. (.*)", message)
        assert found and found[3] == verdict, (message, verdict)
        shown = [float(found[1].replace("−", "-")), float(found[2])]
        assert shown == pytest.approx(numbers, abs=0.006)
    # No column is cut off.
    table = "document.querySelector('table.bench').parentElement"
    assert page.value(f"{table}.scrollWidth - {table}.clientWidth") <= 1
    # The page that is loaded again compares with the same version.
    page.until("history.state.base?.text.includes('Dwarf')")
    page.run("window.isOld = true; location.reload()")
    page.until(f"!window.isOld && window.corewar && {done}")
    page.until(f"document.getElementById('bench-change').textContent === {json.dumps(message)}")
    # Results of an earlier text are marked.
    page.run("corewar.shelf.editor.mirror.setValue('x')")
    page.until("document.getElementById('bench-note').textContent.startsWith('The source has an error')")
    page.run("corewar.shelf.editor.mirror.setValue(given[0])", text)
    page.until(done)


def test_a_number_is_tuned(page: Browser, tmp_path: Path) -> None:
    """The bench fights with many values of a number, with the results of the program. A click takes a value, and a
    value with which the source has an error leaves a gap.
    """
    page.run("corewar.views.showDesk(true); corewar.shelf.show(corewar.shelf.find('dwarf.red'))")
    # The first click in the editor, too, offers to tune the number.
    page.click("#editor .cm-number")
    page.until("document.getElementById('tune-here').checkVisibility()")
    assert page.text("tune-here") == "Tune 4"
    # With the cursor on the name of an EQU, its number can be tuned, too.
    page.run("corewar.shelf.editor.mirror.setCursor(11, 3)")
    assert page.value("document.getElementById('tune-here').hidden")
    page.run("corewar.shelf.editor.mirror.setCursor(8, 20)")
    assert page.value("document.getElementById('tune-here').hidden") is False
    page.run("document.querySelector('#names input').checked || document.querySelectorAll('#names input')[0].click()")
    page.run("const against = document.getElementById('bench-against'); against.value = 'marked'")
    page.run("rounds.value = '20'; rounds.dispatchEvent(new Event('change'))")
    page.click("#tune-here")
    page.until("location.hash === '#bench' && corewar.bench.tune.results.length === 400")
    # When a part of the sweep is done, the pool has all jobs of the sweep.
    page.until("document.getElementById('tune-note').textContent.includes(' of ')")
    for name, value in (("from", -3), ("to", 8), ("step", 1)):
        page.run(f"document.getElementById('tune-{name}').value = {value}")
    page.run(
        """const {pool} = corewar, ask = pool.ask.bind(pool);
        window.sizes = [];
        pool.ask = (job, given, ...rest) => {
            if (job === "sweep") sizes.push(given[1].length);
            return ask(job, given, ...rest);
        };
        window.texts = [];
        const {prototype} = CanvasRenderingContext2D, {fillText} = prototype;
        prototype.fillText = function(text, ...rest) { texts.push(text); return fillText.call(this, text, ...rest) };"""
    )
    page.run("await corewar.bench.tune.sweep()")
    assert {"-2", "0", "8"} <= {*page.value("texts")} and not {"-3", "-1", "-0"} & {*page.value("texts")}
    # Values appear soon: the first jobs are small.
    assert page.value("sizes") == [1, 1, 1, 1, 2, 2, 4, 4, 4, 4]
    assert page.text("tune-note").startswith("480 of 480 rounds in ")
    found = page.value("corewar.bench.tune.results.map(({value, row}) => [value, row?.points ?? null])")
    # The source asserts that the core size is a multiple of the number.
    assert [value for value, points in found if points is None] == [-3, 0, 3, 6, 7]
    text, opponents = (EXAMPLES / "dwarf.red").read_text(), files("imp", "bomber")
    for value in (-2, 8):
        path = tmp_path / "dwarf.red"
        path.write_text(re.sub(r"EQU +4", f"EQU {value}", text))
        assert dict(found)[value] == sum(table("-r", 20, path, other)[0][0] for other in opponents), value
    # No value is better than the source's own. If another value is taken, the button compares the best one with it.
    line, points = text.split("\n")[5], dict(found)
    assert max(points.values(), key=lambda one: one or 0) == points[4]
    assert page.value("document.getElementById('tune-best').hidden")
    box = page.value("document.getElementById('tune-curve').getBoundingClientRect()")
    page.mouse(box["x"] + box["width"] * 11.5 / 12, box["y"] + 40, "pointerDown", "pointerUp")
    assert page.value("corewar.shelf.editor.mirror.getLine(5)") == line.replace("4", "8")
    means = f"{points[4] / 40:.2f} points, 8 has {points[8] / 40:.2f}"
    assert page.text("tune-best") == f"Take 4: {means}; may be chance"
    page.click("#tune-best")
    assert page.value("corewar.shelf.editor.mirror.getLine(5)") == line
    # A sweep can be cancelled.
    page.run("document.getElementById('tune-to').value = 19000; window.swept = corewar.bench.tune.sweep()")
    page.until("!document.getElementById('tune-stop').hidden")
    # A sweep takes longer than any other job, so a league does not wait for it.
    page.run("document.getElementById('league-of').value = 'marked'; await corewar.league.runAll()")
    assert page.value("corewar.league.done === corewar.league.total && !document.getElementById('tune-stop').hidden")
    page.click("#tune-stop")
    page.run("await swept")
    assert page.value("document.getElementById('tune-stop').hidden")


def test_a_map_of_positions(page: Browser) -> None:
    """Each square is two battles of the program, and a click shows one of them."""
    page.click("[data-view=bench]")
    page.until("document.getElementById('bench-note').textContent.endsWith(' ms')")
    row = "[...document.querySelectorAll('#bench-rows tr')].find(one => one.textContent.startsWith('Lookout'))"
    page.run(f"{row}.querySelector('td:last-child button').click()")
    page.until("document.getElementById('map-stop').hidden && corewar.bench.map.outcomes.every(Boolean)")
    outcomes = page.value("[...corewar.bench.map.outcomes]")
    assert len(outcomes) == 2 * 7801
    for position in (100, 1777, 4001, 7900):
        wins, ties, losses = table("-r", 2, "-F", position, *files("dwarf", "scanner"))[0][1:]
        pair = outcomes[2 * (position - 100) :][:2]
        assert [pair.count(code) for code in (2, 3, 1)] == [wins, ties, losses], position
    index = next(at for at in range(7801) if outcomes[2 * at] != outcomes[2 * at + 1])
    point = page.run(
        """const squares = document.getElementById("map-squares"), columns = Math.floor(squares.clientWidth / 8);
        squares.scrollIntoView({block: "start", behavior: "instant"});
        const {left, top, width} = squares.getBoundingClientRect(), side = width / columns;
        return [left + side * (given[0] % columns + .4), top + side * (Math.floor(given[0] / columns) + .75)];""",
        index,
    )
    page.mouse(*point, "pointerDown", "pointerUp")
    page.until("!document.getElementById('battle').hidden && corewar.session.fight.round === 1")
    assert page.value("corewar.session.fight.position") == 100 + index
    end = {2: "Dwarf wins", 1: "Lookout wins", 3: "A tie"}[outcomes[2 * index + 1]]
    page.run("await corewar.session.jump(corewar.session.end)")
    page.until(f"document.getElementById('outcome').textContent.startsWith('{end}')")


def test_the_league_is_the_program(page: Browser) -> None:
    page.run(
        "rounds.value = '20'; rounds.dispatchEvent(new Event('change'));"
        "corewar.views.show('league'); await corewar.league.runAll()"
    )
    page.until("document.querySelectorAll('#league-table tr').length === corewar.examples.length + 1")
    names = sorted(path.stem for path in EXAMPLES.glob("*.red"))
    texts = page.value(
        "[...document.querySelectorAll('#league-table tr')].slice(1).map(row => row.cells[2].textContent)"
    )
    points = sorted((row[0] for row in table("-r", 20, "--league", *files(*names))), reverse=True)
    assert [int(text.replace(",", "")) for text in texts] == points


def test_a_league_that_fails_says_why(page: Browser) -> None:
    page.run("corewar.terms.value = {...corewar.terms.value, rounds: 1, formula: 'W/'}")
    page.run("corewar.views.show('league'); await corewar.league.runAll()")
    note = page.text("league-note")
    assert re.fullmatch(r"0 of \d+ matches, 1 round each, in 0\.0 s; error: The score formula is not valid\.", note)
    assert page.value("document.getElementById('league-stop').hidden && document.getElementById('league-done').hidden")


def test_a_league_that_runs_has_an_order(page: Browser) -> None:
    """The table is sorted by points per round, since some warriors have fought more matches than others."""
    page.run("corewar.terms.value = {...corewar.terms.value, rounds: 1}")
    page.run("corewar.views.show('league'); await corewar.league.runAll()")
    page.run(
        """const row = (points, wins, ties, losses) => ({points, wins, ties, losses});
        corewar.league.against = [[null, row(0, 0, 0, 1), row(4, 1, 1, 0)], [row(3, 1, 0, 0), null, null],
          [row(1, 0, 1, 1), null, null]];
        corewar.league.draw();"""
    )
    points = "[...document.querySelectorAll('#league-table tr')].slice(1).map(row => row.cells[2].textContent)"
    assert page.value(points) == ["3", "4", "1"]


def test_a_match_of_the_league_is_watched(page: Browser) -> None:
    """The round that is shown is the first one of the match, also if the seed has changed since."""
    page.run("corewar.terms.value = {...corewar.terms.value, seed: 7, rounds: 2}; corewar.views.show('league')")
    page.run("await corewar.league.runAll(); corewar.terms.value = {...corewar.terms.value, seed: 8}")
    page.run("document.querySelector('#league-table button').click()")
    page.until("corewar.session.fight.seed === 7 && !document.getElementById('battle').hidden")
    assert page.value("document.getElementById('seed').value") == "7"


def test_a_league_is_kept(page: Browser) -> None:
    """The page that is loaded again shows the league, and continues with the matches that are missing."""
    page.run("corewar.terms.value = {...corewar.terms.value, rounds: 2}; corewar.views.show('league')")
    page.run("await corewar.league.runAll()")
    again = "window.isOld = true; location.reload()"
    loaded = "!window.isOld && window.corewar?.session.view"
    table, note = (f"document.getElementById('league-{part}').textContent" for part in ("table", "note"))
    before = page.value(f"[{table}, {note}]")
    page.run(again)
    page.until(loaded)
    page.run("corewar.views.show('league')")
    assert page.value(f"[{table}, {note}]") == before
    code = """const kept = JSON.parse(localStorage.getItem("corewar; league"));
      localStorage.setItem("corewar; league", JSON.stringify({...kept, results: kept.results.slice(3)}));"""
    page.run(code + again)
    page.until(loaded)
    page.run(
        """const {pool, terms} = corewar, ask = pool.ask.bind(pool);
        window.matches = 0;
        pool.ask = (job, ...rest) => {
            if (job === "match") window.matches++;
            return ask(job, ...rest);
        };
        terms.value = {...terms.value, rounds: 2};
        corewar.views.show("league");"""
    )
    count = page.value("corewar.league.total")
    assert page.text("league-note").startswith(f"{count - 3} of {count} matches, 2 rounds each, in ")
    page.run("await corewar.league.runAll()")
    assert page.value("window.matches") == 3 and page.value(table) == before[0]
    page.run("document.querySelector('#league-table button').click()")
    page.until("!document.getElementById('battle').hidden && corewar.session.fight.rounds === 2")


def test_fields_show_what_is_used(page: Browser) -> None:
    code = """const field = document.getElementById(given[0]);
      field.value = given[1];
      field.dispatchEvent(new Event('change'));
      return [field.value, String(corewar.terms.value[given[0]])];"""
    for name, entered, used in (("seed", "0", "1"), ("rounds", "1000000", "100000"), ("rounds", "", "100")):
        assert page.run(code, name, entered) == [used, used], entered


def test_own_settings(page: Browser) -> None:
    code = """hill.value = ''; hill.dispatchEvent(new Event('change'));
      document.getElementById('own-core').value = '800'; document.getElementById('own-cycles').value = '50';
      document.getElementById('own-formula').value = 'W'; document.querySelector('#own-form .main').click();"""
    page.run(code)
    page.until("corewar.session.fight.settings.core === 800 && corewar.session.end === 100 && !own.open")
    assert page.value("[corewar.terms.value.formula, hill.value]") == ["W", ""]
    # What is not valid changes nothing: the dialog stays open, and says why.
    fault = "document.getElementById('own-formula').validationMessage === '%s'"
    for name, value, why in (
        ("core", "50", "These core settings are not valid together."),
        ("formula", "W/", "The score formula is not valid."),
    ):
        page.run("hill.value = ''; hill.dispatchEvent(new Event('change'))")
        page.run(
            """const field = document.getElementById(`own-${given[0]}`);
            field.value = given[1];
            field.dispatchEvent(new Event('input', {bubbles: true}));
            document.querySelector('#own-form .main').click()""",
            name,
            value,
        )
        page.until(fault % why)
        assert page.value("[own.open, corewar.terms.value.settings.core, corewar.terms.value.formula]") == [
            True,
            800,
            "W",
        ]
        page.press("Escape")
        page.until("!own.open")


def test_own_settings_are_opened_again(page: Browser) -> None:
    """The list of hills has a line that opens the dialog of custom settings, also while these are used."""
    page.run("hill.value = 'edit'; hill.dispatchEvent(new Event('change'))")
    page.run("document.getElementById('own-cycles').value = '50'; document.querySelector('#own-form .main').click()")
    page.until("corewar.session.end === 100 && hill.value === ''")
    page.run("hill.value = 'edit'; hill.dispatchEvent(new Event('change'))")
    assert page.value("[own.open, document.getElementById('own-cycles').value]") == [True, "50"]
    page.press("Escape")
    page.until("!own.open && hill.value === ''")


def test_new_terms_of_a_hidden_battle(page: Browser) -> None:
    """The battle is fought again when it is shown, but only if the terms have changed."""
    page.run("corewar.views.show('league'); seed.value = '9'; seed.dispatchEvent(new Event('change'))")
    assert page.value("corewar.session.fight.seed") == 1
    page.run("document.querySelector('[data-view=battle]').click()")
    page.until("corewar.session.fight.seed === 9 && !document.body.classList.contains('busy')")
    page.run("corewar.round(1)")
    page.until("corewar.session.fight.round === 1")
    page.run("for (const name of ['league', 'battle']) document.querySelector(`[data-view=${name}]`).click()")
    assert page.value("[document.body.classList.contains('busy'), corewar.session.fight.round]") == [False, 1]


@pytest.mark.parametrize("core", [1, 2, 5, 1_048_576])
def test_cores_of_all_sizes(page: Browser, core: int) -> None:
    """All cells of the core are visible, and the list has only cells of the core."""
    code = """const settings = {...corewar.terms.value.settings, core: given[0], longest: 1, distance: 1, cycles: 3};
      await corewar.fight([{name: "jump.red", text: "JMP 0"}], false, {...corewar.terms.value, settings});"""
    page.run(code, core)
    # The list is drawn after the turn.
    listed = "[...document.querySelectorAll('#listing .address')].map(one => one.textContent).sort().join(' ')"
    around = sorted({f"{address % core:,}" for address in range(-4, 5)})
    page.until(f"corewar.session.isSettled && {listed} === '{' '.join(around)}'")
    boxes = "['stage', 'core'].map(id => document.getElementById(id).getBoundingClientRect())"
    stage, canvas = page.value(boxes)
    assert canvas["left"] >= stage["left"] - 1 and canvas["right"] <= stage["right"] + 1
    assert canvas["top"] >= stage["top"] - 1 and canvas["bottom"] <= stage["bottom"] + 1
    code = """const {core} = corewar.theatre, {x, y} = core.pointOf(given[0]);
      return core.addressAt({clientX: x, clientY: y});"""
    assert page.run(code, core - 1) == core - 1


def test_many_warriors(page: Browser) -> None:
    names = sorted(path.stem for path in EXAMPLES.glob("*.red"))
    fight(page, *names)
    assert page.value("corewar.session.known.names.length") == len(names)
    page.run("await corewar.fight(Array(16).fill(corewar.examples[0]), false)")
    assert page.value("corewar.session.known.names.slice(-1)") == ["Hail 16"]
    page.run("await corewar.fight(Array(17).fill(corewar.examples[0]), false)")
    assert "1 to 16 warriors" in page.text("complaint")


def test_a_lesson_is_checked(page: Browser) -> None:
    page.click("[data-view=learn]")
    # A lesson is checked beside its battle. The list of lessons leads there, and its main button is the first lesson's.
    main = "[...document.querySelectorAll('#lessons button')].map(one => one.className)"
    assert page.value(main) == ["main"] + [""] * 9
    begin = "document.querySelectorAll('#lessons button')[given[0]].click()"
    check = "document.querySelector('#lesson-box .main').click()"
    verdict = "document.querySelector('#lesson-box .verdict').textContent === '%s'"
    page.run(begin, 1)
    page.until("corewar.session.way === 1 && corewar.session.end === 163001")
    assert not page.value("document.getElementById('welcome').checkVisibility()")
    # Waiting for the end is not enough.
    go_to_turn(page, 163001)
    page.run(check)
    page.until(verdict % "No warrior dies in turn 163,001.")
    page.run("corewar.session.jump(0); await corewar.theatre.leap('dies', true)")
    page.until("corewar.session.turn === 9002 && corewar.session.isSettled")
    page.run(check)
    page.until(verdict % "Correct: a warrior dies in this turn.")
    page.run(begin, 3)
    page.until("corewar.shelf.shown.name.startsWith('a-tie')")
    page.run(check)
    counts = "1 cell; won %d, tied %d and lost %d of 100 rounds."
    lost = f"{counts % (0, 0, 100)} The goal is to survive 100. Watch a lost round"
    page.until(verdict % lost)
    page.run(f"corewar.shelf.editor.mirror.setValue('MOV 0, 1\\n'); {check}")
    page.until(verdict % f"{counts % (0, 100, 0)} Well done.")
    assert page.text("progress") == "2 of 10 done Continue: Watch an imp"
    page.click("[data-view=learn]")
    page.click("#progress button")
    page.until("location.hash === '#learn/1'")


@pytest.mark.parametrize("view", ["battle", "bench", "league", "learn"])
def test_no_window_scrolls_sideways(page: Browser, view: str) -> None:
    page.run("corewar.views.show(given[0]); corewar.views.showDesk(true)", view)
    try:
        for width in (320, 390, 768, 1280, 2560):
            page.resize(width, 844)
            page.until("document.documentElement.scrollWidth <= innerWidth + 1")
    finally:
        page.resize(1280, 800)


@pytest.fixture
def narrow(page: Browser) -> Iterator[Browser]:
    """Yields the page in a window as wide as a telephone."""
    page.resize(390, 844)
    yield page
    page.resize(1280, 800)


def test_nothing_moves_while_the_page_begins(page: Browser, site: str) -> None:
    """Layout shifts are small (browsers call a sum above 0.1 poor), and Play is visible in windows of all sizes."""
    moved = """return new Promise(done => {
        let sum = 0;
        const add = list => { for (const entry of list.getEntries()) sum += entry.value };
        new PerformanceObserver(add).observe({type: "layout-shift", buffered: true});
        setTimeout(() => done(sum), 500);
      })"""
    play = "document.getElementById('play').getBoundingClientRect()"
    try:
        for width, height in ((1280, 800), (390, 844), (844, 390), (320, 640)):
            page.resize(width, height)
            page.open(f"{site}?{width}")
            page.until("window.corewar?.session.view && document.body.classList.contains('running')")
            assert page.run(moved) < 0.02, width
            assert page.value(f"{play}.top > 0 && {play}.bottom <= innerHeight"), width
    finally:
        page.resize(1280, 800)


def test_a_narrow_page_shows_the_whole_strip(narrow: Browser) -> None:
    """The core leaves room for the strip above the controls."""
    boxes = "['core', 'track', 'controls'].map(id => document.getElementById(id).getBoundingClientRect())"
    for width, height in ((390, 844), (412, 915), (768, 1024)):
        narrow.resize(width, height)
        narrow.until(f"(([core, track, controls]) => track.bottom <= controls.top + 1 && core.height > 200)({boxes})")


def test_a_narrow_page_has_tabs(narrow: Browser) -> None:
    """The battle, the editor and the lesson are a tap apart. A tap on a cell describes it below the core, and the turns
    can still be stepped.
    """
    go_to_turn(narrow, 900)
    point = narrow.value("corewar.theatre.core.pointOf(3)")
    narrow.mouse(point["x"], point["y"], "pointerDown", "pointerUp")
    box = "document.getElementById('cell-box').getBoundingClientRect()"
    controls = "document.getElementById('controls').getBoundingClientRect()"
    narrow.until(f"corewar.session.pinned !== null && {box}.height > 100 && {box}.bottom <= {controls}.top + 1")
    shown = "['battle', 'desk', 'lesson-box'].filter(id => document.getElementById(id).checkVisibility())"
    assert narrow.value(shown) == ["battle"]
    narrow.click("#tabs [data-tab=code]")
    assert narrow.value(shown) == ["desk"]
    # The scroll bar of the editor, whose lines are long, is not above the tabs.
    above = "document.elementFromPoint(given[0], innerHeight - given[1]).closest('#tabs, #editor')?.id"
    narrow.until("document.querySelector('.CodeMirror-hscrollbar').offsetHeight")
    assert {narrow.run(f"return {above}", x, y) for x in (60, 300) for y in range(2, 44, 3)} == {"tabs"}
    assert narrow.value("!document.querySelector('#tabs [data-tab=lesson]').checkVisibility()")
    narrow.run("await corewar.lessons.begin(corewar.lessons.lessons[4])")
    assert narrow.value(shown) == ["lesson-box"]
    narrow.click("#tabs [data-tab=view]")
    assert narrow.value(shown) == ["battle"]
    # The bench and the league, too, are a tap apart from the list of sources.
    for view in ("bench", "league"):
        narrow.click(f"[data-view={view}]")
        for tab, place in (("code", "desk"), ("view", view)):
            narrow.click(f"#tabs [data-tab={tab}]")
            visible = "['bench', 'league', 'desk'].filter(id => document.getElementById(id).checkVisibility())"
            assert narrow.value(visible) == [place]
        assert narrow.text("tab-view").lower() == view
    # The head is two rows high; a button shows the terms.
    terms = "document.getElementById('terms').checkVisibility()"
    narrow.resize(360, 740)
    assert narrow.value("document.getElementById('top').offsetHeight") < 100 and not narrow.value(terms)
    narrow.click("#terms-show")
    assert narrow.value(terms)


def test_a_narrow_page_shows_lessons(narrow: Browser) -> None:
    """The text of the next lesson is visible, and help begins with its first line."""
    narrow.press("?")
    assert narrow.value("helping.open && !helping.scrollTop")
    narrow.press("Escape")
    narrow.run("document.querySelector('#lessons .lesson button').click()")
    narrow.until("corewar.session.fight.warriors.length === 1 && corewar.session.isSettled")
    narrow.until("document.getElementById('lesson-box').checkVisibility()")
    # The button of the lesson leads to the battle.
    narrow.run("document.querySelector('#lesson-box button').click()")
    narrow.until("document.getElementById('battle').checkVisibility() && corewar.session.way === 1")
    narrow.run("document.querySelector('[data-tab=lesson]').click(); corewar.session.jump(corewar.session.end)")
    narrow.until("corewar.session.turn === corewar.session.end && corewar.session.isSettled")
    narrow.run("document.querySelector('#lesson-box .main').click()")
    narrow.until("document.querySelector('#lesson-box .main').textContent === 'Next lesson'")
    narrow.run("document.querySelector('#lesson-box .main').click()")
    place = "document.getElementById('lesson-box').getBoundingClientRect()"
    narrow.until(f"document.querySelector('#lesson-box h2').textContent.startsWith('2') && {place}.top >= 0")
    narrow.until(f"{place}.bottom <= innerHeight + 1")


def test_a_narrow_page_begins_with_its_battle(narrow: Browser, site: str) -> None:
    """The page shows its battle first, also if the editor was open before."""
    narrow.run("corewar.views.showDesk(true)")
    narrow.open(f"{site}?narrow")
    narrow.until("window.corewar?.session.view")
    assert narrow.value("[scrollY, document.getElementById('battle').checkVisibility()]") == [0, True]


def test_a_narrow_page_shows_answers(narrow: Browser) -> None:
    """These are visible: why a warrior died, the clicked round, errors, both futures, and the change of a version."""
    narrow.run("document.getElementById('why-now').click()")
    words = "document.getElementById('chain-box').getBoundingClientRect()"
    narrow.until(f"corewar.session.turn === 7797 && {words}.top >= 0 && {words}.bottom <= innerHeight + 1")
    narrow.run("await corewar.rounds.fight(); document.querySelector('#strip button:nth-child(2)').click()")
    narrow.until("scrollY === 0 && corewar.session.fight.round === 1")
    narrow.run("corewar.complain('x')")
    assert narrow.value("complaint.getBoundingClientRect().bottom <= stage.getBoundingClientRect().top")
    narrow.run("await corewar.console.run('edit 3 jmp 0'); await corewar.session.compare(0)")
    cores = "[...document.querySelectorAll('#stage canvas')].map(one => one.getBoundingClientRect())"
    narrow.until(f"{cores}.every(one => one.left >= 0 && one.width > 300 && one.right <= innerWidth)")
    narrow.run("corewar.views.show('bench')")
    assert narrow.value("document.getElementById('bench-title').getBoundingClientRect().bottom <= innerHeight")
    narrow.until("document.getElementById('bench-note').textContent.endsWith(' ms')")
    narrow.click("#bench-base")
    narrow.until("document.getElementById('bench-change').textContent")
    table = "document.querySelector('table.bench').parentElement"
    assert narrow.value(f"{table}.scrollWidth - {table}.clientWidth") <= 1


CONTRAST = """
const probe = Object.assign(document.createElement("canvas"), {width: 1, height: 1}).getContext("2d");
const parse = colour => {
  probe.clearRect(0, 0, 1, 1);
  probe.fillStyle = colour;
  probe.fillRect(0, 0, 1, 1);
  const [r, g, b, a] = probe.getImageData(0, 0, 1, 1).data;
  return [r, g, b, a / 255];
};
const light = ([r, g, b]) => [r, g, b].map(v => v / 255).map(v => v <= .03928 ? v / 12.92 : ((v + .055) / 1.055) ** 2.4)
  .reduce((sum, v, i) => sum + v * [.2126, .7152, .0722][i], 0);
const ground = one => {
  for (let at = one; at; at = at.parentElement) {
    const colour = parse(getComputedStyle(at).backgroundColor);
    if (colour[3] > .99) return colour;
  }
  return [255, 255, 255];
};
const poor = [];
for (const one of document.querySelectorAll("body *")) {
  const written = [...one.childNodes].filter(node => node.nodeType === 3).map(node => node.data.trim()).join("");
  const text = written || one.placeholder;
  if (!text || !one.checkVisibility()) continue;
  if (one.closest("[disabled], .CodeMirror-measure, noscript, script, .match")) continue;
  const {color} = getComputedStyle(one, written ? "" : "::placeholder");
  const [a, b] = [light(parse(color)), light(ground(one))].sort((x, y) => y - x);
  if ((a + .05) / (b + .05) < 4.5) poor.push(`${one.tagName}#${one.id}.${one.className}: ${text.slice(0, 20)}`);
}
return poor;"""


CELL_CONTRAST = """
const {canvas} = corewar.theatre.core, {x, y} = corewar.theatre.core.pointOf(given[0]);
const {left, top} = canvas.getBoundingClientRect(), half = corewar.theatre.core.cell / 2 - 8;
const {data} = canvas.getContext("2d").getImageData(x - left - half, y - top - half, 2 * half, 2 * half);
const light = i => [.2126, .7152, .0722].reduce((sum, part, k) => sum + part * (data[i + k] / 255) ** 2.2, .05);
const all = Array.from({length: data.length / 4}, (_, i) => light(4 * i)).sort((a, b) => a - b);
const ground = all[all.length >> 1];
return Math.max(ground / all[0], all[all.length - 1] / ground);"""


def test_texts_in_cells_have_contrast(page: Browser) -> None:
    """The contrast is enough whether the cell was written recently or not."""
    page.run("hill.value = 'nano'; hill.dispatchEvent(new Event('change'))")
    fight(page, "gate", "imp")
    go_to_turn(page, 20)
    for address in (0, 56, 62, 79):
        assert page.run(CELL_CONTRAST, address) >= 4.5, address


UNNAMED = """
const isNamed = one => (one.getAttribute("aria-label") ?? one.closest("label, button")?.textContent)?.trim();
return [...document.querySelectorAll("button, input, select, canvas[tabindex]")]
  .filter(one => !isNamed(one) && one.type !== "file").map(one => one.outerHTML.slice(0, 80));"""


@pytest.mark.parametrize("theme", ["light", "dark"])
def test_texts_have_contrast_and_controls_have_names(page: Browser, theme: str) -> None:
    page.run("document.documentElement.dataset.theme = given[0]; corewar.views.showDesk(true)", theme)
    for view in ("battle", "bench", "league", "learn"):
        page.run("corewar.views.show(given[0]); await new Promise(done => setTimeout(done, 200))", view)
        assert page.run(CONTRAST) == [], view
    assert page.run(UNNAMED) == []
    # Without the theme of a desktop, Firefox draws white bars on dark pages.
    assert page.value("getComputedStyle(names).scrollbarColor") != "auto"


HEADINGS = """return [...document.querySelectorAll("h1, h2, h3")].filter(one => one.checkVisibility())
  .map(one => Number(one.tagName[1]))"""


def test_a_screen_reader_follows(page: Browser) -> None:
    """No view leaves out a level of headings, and a step announces the turn that it shows."""
    page.press(" ")
    for view in ("battle", "bench", "league", "learn"):
        page.run("corewar.views.show(given[0])", view)
        levels = page.run(HEADINGS)
        assert levels[0] == 1 and all(after <= before + 1 for before, after in zip(levels, levels[1:])), view
    page.run("document.querySelectorAll('#lessons .lesson')[1].querySelector('button').click()")
    page.until("document.activeElement.id === 'lesson-box' && corewar.session.way === 1")
    assert page.run(HEADINGS)[:2] == [1, 2]
    fight(page, "dwarf", "imp")
    go_to_turn(page, 7796)
    page.press("Right")
    announced = "[...document.querySelectorAll('#side [aria-live=polite]')].map(one => one.textContent).join('')"
    page.until(f"{announced}.startsWith('Dwarf executed MOV.I $2, @2 at 1.')")
    page.press("Right")
    page.until("document.querySelector('#caption[aria-live=polite]')?.textContent === 'Dwarf wins after 7,798 turns.'")


def test_the_keyboard_leaves_the_editor(page: Browser) -> None:
    page.press("e")
    page.until("document.activeElement.closest('#editor')")
    page.press("Tab", "Escape", "Tab")
    assert page.value("!document.activeElement.closest('#desk')")


def test_memory_does_not_grow(page: Browser) -> None:
    """Over 500 fights, the memory of the machine and of the stored battles does not grow."""
    code = """const [one, other] = [corewar.examples[0], corewar.examples[3]];
      corewar.terms.value = {...corewar.terms.value, settings: {...corewar.terms.value.settings, cycles: 500}};
      for (let seed = 1; seed <= given[0]; seed++) {
        const fight = {...corewar.terms.value, seed, round: 0, warriors: [one, other], edits: []};
        await corewar.session.open(fight, {plays: false});
      }
      return corewar.session.desk.memory();"""
    first = page.run(code, 10)
    for _ in range(5):
        last = page.run(code, 100)
    # Some of the 500 battles have more processes than the first ten.
    assert last["marks"] <= 2 * first["marks"] and last["machine"] <= first["machine"] + 1_000_000


def test_a_page_in_one_file(page: Browser, browser: Browser, tmp_path: Path) -> None:
    """A page in one file opens from a disk, and can save another such page."""
    go_to_turn(page, 7797)
    text = page.run("return pageWith(await shared(corewar.session))")
    (tmp_path / "fight.html").write_text(text, encoding="utf-8")
    browser.open(f"file://{tmp_path}/fight.html")
    browser.until("window.corewar?.session.turn === 7797 && corewar.session.isSettled")
    again: str = browser.run("return pageWith(await shared(corewar.session))")
    (tmp_path / "again.html").write_text(again, encoding="utf-8")
    browser.open(f"file://{tmp_path}/again.html#t=5000")
    browser.until("window.corewar?.session.turn === 5000 && corewar.session.isSettled")
    browser.open("about:blank")
