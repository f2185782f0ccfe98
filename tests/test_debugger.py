"""The debugger: a session has the battle of the program's debugger, and commands report it."""
from __future__ import annotations

import itertools
import os
import re
import signal
import time
from pathlib import Path

import pytest
from battles import MOVES, is_listed, matches
from conftest import EXAMPLES, Run, begin
from costly import slow
from hypothesis import given, strategies as st

from corewar.analysis.formatting import paint
from corewar.battle.conditions import Condition
from corewar.battle.history import History
from corewar.battle.labels import Sources
from corewar.debugger.commands import COMMANDS, QuitDebugger, execute, find_command
from corewar.debugger.prompt import LineHistory
from corewar.debugger.session import Session
from corewar.engine.calls import Match, assemble
from corewar.engine.sources import read
from corewar.model.errors import CorewarError
from corewar.model.printing import COLOUR, make_distinct


def session_of(*names: str) -> Session:
    fight = Match(tuple(read(str(EXAMPLES / f"{name}.red"), warriors=len(names)) for name in names))
    history = History(fight)
    return Session(history, Sources(history))


def refused(session: Session, line: str) -> str:
    with pytest.raises(CorewarError) as fault:
        execute(session, line)
    return str(fault.value)


@given(matches(), st.lists(MOVES, max_size=12))
def test_a_session_has_the_battle_of_the_program(fight: Match, lines: list[str]) -> None:
    """After any commands, accepted or refused, the battle is that of the program's debugger."""
    history = History(fight)
    session = Session(history, Sources(history))
    for line in lines:
        try:
            execute(session, line)
        except CorewarError:
            pass
    assert is_listed(fight, lines, session.history.state(session.turn))


def test_moves() -> None:
    session = session_of("dwarf", "imp")
    assert execute(session, "step") == [
        "turn 1: Dwarf at 0 (loop): ADD.AB #4, $3; 3 (bomb): DAT.F #0, #0 -> DAT.F #0, #4; then at 1",
        "next: Imp at 1305: MOV.I $0, $1    ; 5: MOV.I 0, 1",
    ]
    places = [6, 7, 6, 4, 7798, 7, 10, 0, 7798, 0, 7798]
    for line, turn in zip(
        ("n 5", "s dwarf", "rs", "back imp", "run", "goto 7", "until 5", "g start", "g end", "u", "redo"), places
    ):
        execute(session, line)
        assert session.turn == turn, line
    assert refused(session, "until 5") == "cycle 5 is already completed in turn 7798; use `goto` with an earlier turn"
    assert execute(session, "goto end")[-1] == "the battle is over: Dwarf survives"
    assert refused(session, "goto 7799") == refused(session, "goto +1") == "the battle has turns 0 to 7798"
    assert (
        execute(session, "goto -8")[0].startswith("turn 7790: ") and execute(session, "g +5") and session.turn == 7795
    )
    assert refused(session, "goto soon") == "expected a turn, `start`, `end`, +N or -N, not `soon`"
    execute(session, "goto end")
    assert refused(session, "step imp") == "Imp has no turn after turn 7798"


def test_searches_go_both_ways() -> None:
    session = session_of("dwarf", "imp")
    assert execute(session, "continue changes 3")[0] == "changes 3 (bomb):" and session.turn == 1
    assert execute(session, "c changes 1300..1400 by imp")[0] == "changes 1300..1400 by Imp:" and session.turn == 2
    assert execute(session, "c dies imp")[0] == "dies Imp:" and session.turn == 7798
    assert execute(session, "rc at 0")[1].startswith("turn 7794: Imp") and session.turn == 7794
    assert refused(session, "continue").startswith("no breakpoint is set")
    assert execute(session, "b changes 3") == ["breakpoint 0: changes 3 (bomb)"]
    assert execute(session, "b dies Imp") == ["breakpoint 0: changes 3 (bomb)", "breakpoint 1: dies Imp"]
    execute(session, "goto 0")
    assert execute(session, "c")[0] == "changes 3 (bomb):"
    assert refused(session, "delete") == "no breakpoint ``; expected a number or `all`"
    assert execute(session, "d 0") == ["breakpoint 1: dies Imp"]
    assert execute(session, "b at 2")[1:] == ["breakpoint 2: at 2"]
    assert execute(session, "d all") == ["all breakpoints are deleted"]
    assert execute(session, "break") == ["no breakpoint is set"]
    assert refused(session, "rc dies imp") == "not found before turn 1"
    assert refused(session, "c dies nobody") == "no warrior `nobody`; the warriors are 0 Dwarf, 1 Imp"
    assert execute(session, "c changes 0..7999 by dwar")[0].endswith(" by Dwarf:") and execute(session, "goto 1")
    assert refused(session, "break sees 3").startswith("expected a condition: at, changes or reads [A")
    assert execute(session, "c reads bomb")[:2] == [
        "reads 3 (bomb):",
        "turn 3: Dwarf at 1: MOV.I $2, @2; reads 3 (bomb); 7: DAT.F $0, $0 -> DAT.F #0, #4; then at 2",
    ]
    assert execute(session, "c reads 0..7999 by imp")[0] == "reads 0 (loop)..7999 by Imp:" and session.turn == 4
    assert execute(session, "rc reads 3 by dwarf")[0] == "reads 3 (bomb) by Dwarf:" and session.turn == 3


def test_a_list_is_as_wide_as_its_names() -> None:
    session = session_of("dwarf", "imp")
    assert execute(session, "list 2 2") == [
        "       2            JMP.B $-2, $0             ; 11: JMP loop",
        "       3 bomb       DAT.F #0, #0              ; 12: bomb DAT #0, #0",
    ]
    assert execute(session, "list 0 2") == [
        ">      0 loop       ADD.AB #4, $3            Dwarf ; 9: loop ADD #step, bomb",
        "       1            MOV.I $2, @2                   ; 10: MOV bomb, @bomb",
    ]


def test_cells_are_a_range_or_a_number() -> None:
    """As in conditions, a range of `list` may wrap around the end of the core."""
    session = session_of("dwarf", "imp")
    assert execute(session, "list loop..3") == execute(session, "list 0 4")
    assert execute(session, "list 7999..1") == execute(session, "list 7999 3")
    assert execute(session, "fill 10..12 nop 0") == ["10 to 12: NOP.F $0, $0"] == execute(session, "fill 10 12 nop 0")
    assert refused(session, "list 5..8000").startswith("`8000` is not an address")
    assert refused(session, "fill 12..10 nop 0").endswith("the first address is above the last")


def test_a_list_fits_a_narrow_terminal() -> None:
    """Columns are only as wide as their texts, and sources are cut."""
    session = session_of("dwarf", "imp")
    wide = execute(session, "list 0 4")
    session.width = lambda: max(map(len, wide))
    assert execute(session, "list 0 4") == wide
    session.width = lambda: 53
    session.paint = paint
    lines = execute(session, "list 0 4")
    assert lines[0] == f"> 0 loop ADD.AB #4, $3 {paint(0, 'Dwarf')} ; 9: loop ADD #step, b.."
    assert [COLOUR.sub("", line) for line in lines[1:]] == [
        "  1      MOV.I $2, @2        ; 10: MOV bomb, @bomb",
        "  2      JMP.B $-2, $0       ; 11: JMP loop",
        "  3 bomb DAT.F #0, #0        ; 12: bomb DAT #0, #0",
    ]
    session.width = lambda: 24
    assert [*map(len, execute(session, "list 1 3"))] == [21, 22, 21]


def test_a_long_queue_is_shown_in_parts() -> None:
    """An edit shows the processes around its own."""
    session = session_of("dwarf", "imp")
    for address in range(39):
        lines = execute(session, f"spawn imp {address}")
    last = " ".join(map(str, range(19, 39)))
    assert lines == [f"Imp, from process 20 on: {last}"]
    first = " ".join(map(str, [1305, *range(4), *range(5, 20)]))
    assert execute(session, "kill imp 5") == [f"Imp: {first} and 19 more: `queue 1 20`"] == execute(session, "queue 1")
    middle = " ".join(map(str, [*range(9, 19), 500, *range(20, 29)]))
    assert execute(session, "move imp 19 500") == [f"Imp, from process 9 on: {middle} and 10 more: `queue 1 29`"]
    assert execute(session, "queue 1 29")[0].endswith("on: 29 30 31 32 33 34 35 36 37 38")
    assert refused(session, "queue imp 39") == "Imp has no process 39; its number of processes is 39"


def test_edits_make_futures() -> None:
    session = session_of("dwarf", "imp")
    execute(session, "goto 6")
    assert execute(session, "edit 0 jmp 2") == ["0 (loop): ADD.AB #4, $3 -> JMP.B $2, $0"]
    assert session.history.end == 160000
    assert execute(session, "futures") == [
        "  0: no edits; 7798 turns",
        "> 1: after turn 6: edit 0 JMP.B $2, $0; 160000 turns",
    ]
    assert execute(session, "spawn imp 100") == ["Imp: 1308 100"]
    assert execute(session, "move imp 1 200") == ["Imp: 1308 200"]
    assert execute(session, "kill 1 0") == ["Imp: 200"]
    assert execute(session, "fill 300 302 spl 0") == ["300 to 302: SPL.B $0, $0"]
    execute(session, "futures 0")
    assert (session.turn, session.history.end) == (6, 7798)
    execute(session, "undo")
    assert len(session.history.edits) == 5
    assert (
        refused(session, "edit 8000 nop")
        == "`8000` is not an address: a number below 8000, a label or `.`, with or without +N or -N"
    )
    assert refused(session, "edit 0 mvo 1") == (
        "`mvo 1` is not an instruction: 2 Operation: `mvo` is read as a label; did you mean `MOV`?"
    )
    assert refused(session, "edit 0 dat \\") == (
        "`dat \\` is not an instruction: 1 Text 2 BadToken: `\\` is not a character of the language."
    )
    assert refused(session, "edit 0") == "expected an address and a line of source"
    assert refused(session, "kill imp") == "expected a warrior and the index of a process"
    assert refused(session, "spawn imp") == "expected a warrior and an address"
    assert refused(session, "kill imp 3") == "Imp has no process 3; its number of processes is 1"
    assert refused(session, "futures 9") == "no future 9; there are futures 0 to 5"
    execute(session, "goto end")
    assert refused(session, "edit . dat 0") == (
        "`.` is the cell to execute next, but the battle is over; use a number or a label"
    )
    assert refused(session, "fill 5 3 nop") == "cannot fill 5 to 3: the first address is above the last"


def test_reports() -> None:
    session = session_of("dwarf", "imp")
    assert execute(session, "show") == [
        "turn 0, cycle 0, battle of 7798 turns",
        "Dwarf: 1 process; 4 cells loaded at 0",
        "Imp: 1 process; 1 cell loaded at 1305",
    ]
    execute(session, "run")
    assert execute(session, "show") == [
        "turn 7798, cycle 3899, battle over",
        "Dwarf: 1 process; 4 cells loaded at 0",
        "Imp: died in turn 7798; 1 cell loaded at 1305",
    ]
    assert execute(session, "why")[:4] == [
        "Imp died in turn 7798:",
        "turn 7798: Imp at 5203: DAT.F #0, #-2800",
        "    line 12 of Dwarf: bomb DAT #0, #0",
        "Cell 5203 was last changed in turn 7797:",
    ]
    assert execute(session, "why dwarf")[0] == "Dwarf is alive after turn 7798, the last one, with 1 process."
    assert execute(session, "changed 4") == ["Cell 4 has not changed since the start."]
    assert execute(session, "queue imp") == ["Imp:"]
    assert [line.split()[0] for line in execute(session, "list 7999 3")] == ["7999", "0", "1"]


def test_find_counts_places() -> None:
    session = session_of("dwarf", "imp")
    assert execute(session, "find dies imp") == ["dies Imp: 1 time, after turn 7798"]
    assert execute(session, "f splits dwarf") == ["splits Dwarf: never"]
    (line,) = execute(session, "find changes 3")
    count, first = re.findall(r"changes 3 \(bomb\): (\d+) times, after turn ([\d, ]+) and", line)[0]
    execute(session, "goto 0")
    found = [session.turn for _ in range(3) if execute(session, "continue changes 3")]
    assert [*map(int, first.split(", "))][:3] == found and int(count) > 20
    # `at` holds after the turn before the one that executes the cell.
    assert execute(session, "find at 1305") == ["at 1305: 1 time, after turn 1"]
    # The warrior that died is named only if the condition does not name it.
    assert execute(session, "find dies") == ["dies: 1 time, after turn 7798 (Imp)"]
    assert execute(session, "find dies by imp") == ["dies Imp: 1 time, after turn 7798"]
    (line,) = execute(session, "find at from bomb and dies")
    assert line == "at from 3 (bomb) and dies: 1 time, after turn 7797 (Imp)"
    assert refused(session, "find") == refused(session, "break at 3 or 4")


def test_conditions_are_joined() -> None:
    """Joined conditions are about one turn, and about one cell if their words are equal; a history finds the same."""
    session = session_of("dwarf", "imp")
    history = session.history
    (line,) = execute(session, "find changes of 1 by dwarf and becomes dat")
    found = history.find(Condition("changes", of=1, by=0, becomes="DAT"))
    assert line.startswith(f"changes of Imp becomes DAT by Dwarf: {len(found)} times, after turn {found[0]}, ")
    # In each of these turns, Dwarf bombs a cell that Imp wrote or was loaded in.
    for turn in found[::100].tolist():
        (bomb,) = history.trace(turn, turn)
        assert bomb.warrior == 0 and history.owners(turn - 1)[bomb.writes[0].at.address] == 1
    assert execute(session, "find changes 3 and changes 4") == ["changes 3 (bomb) and changes 4: never"]
    assert execute(session, "find reads bomb and changes 5203 becomes dat") == [
        "reads 3 (bomb) and changes 5203 becomes DAT: 1 time, after turn 7797"
    ]
    # What Imp executed last is a copy of what was loaded at `bomb`, and `at` is about the next turn.
    assert history.find(Condition("at", origin=(3, 3)), Condition("dies")).tolist() == [7797]
    assert execute(session, "c at from bomb and dies imp") and session.turn == 7797
    assert execute(session, "break dies imp and was dat of dwarf") == ["breakpoint 0: dies Imp of Dwarf was DAT"]
    for words in (
        "of 0",
        "changes of",
        "changes of 0 of 1",
        "changes 3 reads 3",
        "changes 3 and",
        "and dies",
        "dies by 0 1",
    ):
        assert refused(session, f"find {words}") == refused(session, "find")
    assert refused(session, "find changes was dut") == "expected an opcode, not `dut`"
    with pytest.raises(CorewarError, match="no condition `changed`"):
        Condition("changed")
    with pytest.raises(CorewarError, match="the core has cells 0 to 7999"):
        history.find(Condition("at", (0, 8000)))


def test_names_may_have_words_of_conditions() -> None:
    sources = [f";name {name}\nmov 0, 1\n" for name in ("Wrath of and", "Wrath", "of")]
    history = History(Match(tuple(assemble(source) for source in sources)))
    session = Session(history, Sources(history))
    assert execute(session, "break changes of wrath of and and by Wrath") == [
        "breakpoint 0: changes of Wrath of and by Wrath"
    ]
    assert execute(session, "break dies wrath and reads 3 of wrath of and and was mov")[1] == (
        "breakpoint 1: dies Wrath and reads 3 of Wrath of and was MOV"
    )
    for words in ("dies of", "dies of was MOV", "dies of and splits of", "dies of of Wrath", "splits of Wrath"):
        assert execute(session, f"find {words.lower()}") == [f"{words}: never"]
    assert refused(session, "find dies by") == refused(session, "find")


def test_find_looks_at_all_rounds() -> None:
    """Names, numbers and labels refer to the same warriors in each round, though another warrior begins it."""
    fight = Match(tuple(read(str(EXAMPLES / f"{name}.red"), rounds=30) for name in ("dwarf", "imp")), rounds=30)
    found = [History(fight, number) for number in range(30)]
    for place, words in ((0, "of imp by dwarf"), (1, "of 0 by 1")):
        session = Session(found[place], Sources(found[place]))
        first, *rows = execute(session, f"find -r changes {words} becomes dat")
        assert first.endswith(f" times in {len(rows)} of 30 rounds")
        hits = [one.find(Condition("changes", of=1 - n % 2, by=n % 2, becomes="DAT")) for n, one in enumerate(found)]
        assert len(rows) == sum(map(bool, map(len, hits))) and int(re.findall(r"\d+ ", first)[0]) == sum(map(len, hits))
        assert rows[1] == f"round 1: {len(hits[1])} times, after turn {', '.join(map(str, hits[1][:5]))}" + (
            f" and {len(hits[1]) - 5} more"
        )
    for line in ("find -r reads bomb by dwarf", f"find -r reads {session.names.index('Dwarf')}.bomb by dwarf"):
        first, *rows = execute(session, line)
        assert first.endswith(" in 30 of 30 rounds") and len(rows) == 21 and rows[-1] == "and in 10 more rounds"
    told = list[str]()
    session.tell = told.append
    assert execute(session, "find -r splits") == ["splits: never in 30 rounds"]
    assert told == [f"searched {number} of 30 rounds" for number in range(30)]
    for line in ("find -r at .", "find -r reads 1...+2"):
        assert refused(session, line) == (
            "`.` is the cell to execute next in this round; after -r, use a number or a label"
        )
    assert execute(session, "find -r at 0")[0].endswith("30 rounds")


def test_help_describes_each_command() -> None:
    session = session_of("imp")
    text = "\n".join(execute(session, "help"))
    assert all(one.usage in text for one in COMMANDS.values())
    # The lines on conditions are broken in the table itself.
    assert max(map(len, text.partition("A CONDITION")[2].split("\n"))) <= 80
    assert execute(session, "help step")[0].startswith("step [N|W]")
    assert find_command("cont").name == "continue"
    assert refused(session, "re") == "`re` can mean reverse-step, reverse-continue, redo"
    assert refused(session, "frobnicate") == "unknown command `frobnicate`; `help` lists all commands"
    with pytest.raises(QuitDebugger):
        execute(session, "quit")


def test_words_are_separated_by_any_whitespace() -> None:
    session = session_of("dwarf", "imp")
    assert execute(session, "edit\t5  jmp  0") == ["5: DAT.F $0, $0 -> JMP.B $0, $0"]
    assert len(execute(session, "list 0  2")) == 2
    assert execute(session, "spawn imp  100") == ["Imp: 1305 100"]
    assert execute(session, "move  imp  1  200") == ["Imp: 1305 200"]
    assert execute(session, "kill imp  1") == ["Imp: 1305"]


def test_over_a_pipe(run: Run) -> None:
    done = run("debug", "@dwarf", "@imp", input="step\n\nbad\nundo\nlog kept\nstep 2\nlog\nquit\nstep\n")
    lines = done.stdout.splitlines()
    assert (done.returncode, done.stderr) == (1, "")
    assert lines[0].startswith("turn 1: Dwarf") and lines[2] == "unknown command `bad`; `help` lists all commands"
    assert lines[-1] == "next: Dwarf at 1: MOV.I $2, @2    ; 10: MOV bomb, @bomb"
    late = run("debug", "@dwarf", "@imp", "--turn", 7799)
    assert late.returncode == 2 and "the battle ends after turn 7798" in late.stderr
    again = run("debug", "@dwarf", "@imp", "--turn", 4, input="source kept\nsource nowhere\n")
    assert again.stdout.splitlines()[0].startswith("turn 6: Imp")
    assert again.stdout.splitlines()[-1] == "nowhere: No such file or directory"


def test_deaths_and_cells_of_edits() -> None:
    """Effects of edits are reported as such, also before the first turn."""
    session = session_of("dwarf", "imp")
    execute(session, "kill imp 0")
    assert execute(session, "why") == ["Imp was killed by an edit after turn 0."]
    execute(session, "futures 0")
    execute(session, "goto 5")
    execute(session, "kill imp 0")
    assert execute(session, "why imp") == ["Imp was killed by an edit after turn 5."]
    execute(session, "futures 0")
    execute(session, "goto 7797")
    execute(session, "edit . jmp 0")
    assert "It became" not in "".join(execute(session, "why"))


def test_a_number_has_priority_over_a_name() -> None:
    fight = Match(tuple(assemble(f";name {name}\nnop 0\n", file=f"{name}.red") for name in ("1", "0", "Imp", "imp")))
    session = Session(History(fight), Sources(History(fight)))
    named = ["0", "1", "Imp", "imp", "IMP", "imp.red"]
    assert [session.warrior(name) for name in named] == [0, 1, 2, 3, 2, 3]
    assert make_distinct(["Imp", "Imp", "Imp 1"]) == ["Imp 2", "Imp 3", "Imp 1"]


def test_numbers_of_thousands_of_digits_are_refused() -> None:
    session, long = session_of("imp"), "1" * 5000
    for line in ("list", "delete", "queue", "why", "changed", "spawn 0", "move 0 0", "continue at", "fill 0"):
        assert long in refused(session, f"{line} {long}" + (" nop" if line == "fill 0" else ""))


def test_files_of_lines(run: Run, tmp_path: Path) -> None:
    """The commands `log` and `source` can be abbreviated; executing a file that names itself or is the log ends."""
    (tmp_path / "self").write_text("source self\nstep\n")
    assert run("debug", "@imp", input="source self\n").stdout.splitlines()[-2].startswith("turn 8: ")
    lines = run("debug", "@imp", input="lo kept\nstep\nso kept\nlog\nlog a\0b\nsource a\0b\n").stdout.splitlines()
    assert lines[2].startswith("turn 2: ") and lines[4:] == ["a?b: embedded null byte", "a?b: cannot read"]
    assert run("debug", "@imp", input="source\n").stdout == "expected the name of a file\n"
    assert (tmp_path / "kept").read_text() == "step\nstep\n"


def test_at_a_terminal(tmp_path: object) -> None:
    """At a prompt, an empty line repeats the last command."""
    pexpect = pytest.importorskip("pexpect", reason="package python3-pexpect")
    top = EXAMPLES.parent
    words = ["debug", str(EXAMPLES / "dwarf.red"), str(EXAMPLES / "imp.red")]
    environment = {**os.environ, "XDG_STATE_HOME": str(tmp_path), "TERM": "xterm"}
    with pexpect.spawn(str(top / "corewar"), words, env=environment, timeout=20, encoding="utf-8") as child:
        child.expect("Dwarf against Imp; `help` lists the commands")
        child.expect("turn 0>")
        child.send("step\r")
        child.expect("ADD.AB")
        child.expect("turn 1>")
        child.send("\r")
        child.expect("turn 2>")
        child.sendcontrol("d")
        child.expect(pexpect.EOF)


def test_a_terminal_with_bytes_that_are_not_utf_8(tmp_path: Path) -> None:
    """A line with these bytes is refused; the debugger continues, also if the history of lines cannot be written."""
    pexpect = pytest.importorskip("pexpect", reason="package python3-pexpect")
    environment = {**os.environ, "XDG_STATE_HOME": str(tmp_path), "TERM": "xterm"}
    words = ["debug", str(EXAMPLES / "imp.red")]
    with pexpect.spawn(str(EXAMPLES.parent / "corewar"), words, env=environment, timeout=20) as child:
        child.expect("turn 0>")
        child.send(b"b\xff\xfe\r")
        child.expect("unknown command")
        child.send(b"step\r")
        child.expect("turn 1>")
        child.sendcontrol("d")
        child.expect(pexpect.EOF)
    LineHistory("/dev/full").store_string("step")


def test_control_characters_of_sources_are_not_shown(run: Run, tmp_path: Path) -> None:
    """Control characters are whitespace of the language, so that a valid warrior can have them."""
    (tmp_path / "esc.red").write_bytes(b"c DAT 0, \x1bc\x07\x00 ; \x1b[2J\n")
    shown = run("debug", "esc.red", "@imp", input="list\nedit 0 dat \x1bc\n\x1b[2J\n")
    assert shown.returncode == 1 and "; 1: c DAT 0, c" in shown.stdout and "\x1b" not in shown.stdout + shown.stderr


def test_a_killed_command_leaves_no_process(tmp_path: Path) -> None:
    """The process that assembles ends with the one that started it, both while it waits and while it assembles."""
    os.mkfifo(tmp_path / "pipe")
    (tmp_path / "slow.red").write_text(slow())
    for other, how in itertools.product(("pipe", "slow.red"), (signal.SIGKILL, signal.SIGTERM)):
        process = begin("fight", "--source-limit", "100", EXAMPLES / "imp.red", tmp_path / other)
        listed, children, end = Path(f"/proc/{process.pid}/task/{process.pid}/children"), "", time.monotonic() + 60
        while not children and time.monotonic() < end:
            children = listed.read_text()
            time.sleep(0.05)
        time.sleep(0.3)
        process.send_signal(how)
        # This waits until each process that has the output open has ended.
        process.communicate(timeout=20)


def test_an_edit_knows_the_settings_of_the_match() -> None:
    fight = Match((assemble("MOV 0, 1"),), seed=3, rounds=10)
    session = Session(History(fight), Sources(History(fight)))
    assert execute(session, "edit 5 DAT MAXLENGTH, ROUNDS") == ["5: DAT.F $0, $0 -> DAT.F $100, $10"]


def test_instructions_in_words() -> None:
    """The next instruction or the one of a cell is described, with labels as names."""
    session = session_of("dwarf", "imp")
    assert execute(session, "explain") == ["0 (loop): ADD.AB #4, $3", "Add 4 to the B-number of bomb."]
    copy = "Copy bomb to the cell pointed to by the B-number of bomb."
    assert execute(session, "explain loop+1") == ["1: MOV.I $2, @2", copy]
    assert execute(session, "explain 1305") == ["1305: MOV.I $0, $1", "Copy this instruction to the next cell."]
    execute(session, "goto end")
    assert refused(session, "explain").startswith("`.` is the cell to execute next, but the battle is over")


def test_undo_of_an_edit_is_reported() -> None:
    """The turn is the same, but the future is another one."""
    session = session_of("dwarf", "imp")
    execute(session, "edit 5 dat 1, 1")
    here = execute(session, "step")[1:]
    assert not execute(session, "undo")[0].startswith("now in")
    assert execute(session, "undo")[0] == "now in future 0: no edits"
    assert execute(session, "redo")[0] == "now in future 1: after turn 0: edit 5 DAT.F $1, $1"
    assert execute(session, "redo")[1:] == here


def test_labels_of_several_warriors() -> None:
    session = session_of("dwarf", "bomber")
    assert refused(session, "list bomb") == "`bomb` is a label of several warriors; use 0.bomb or 1.bomb"
    assert execute(session, "list 1.bomb 1")[0].split()[1] == "1.bomb"
    assert refused(session, "edit 700 jmp bomb") == "`bomb` is a label of several warriors; use 0.bomb or 1.bomb"
    assert execute(session, "edit 0 jmp bomb")[0].endswith("-> JMP.B $3, $0")
    there = session.sources.addresses["1.bomb"]
    assert execute(session, "edit 2 mov 0.bomb, @1.bomb+1")[0].endswith(f"-> MOV.I $1, @{there - 1}")
    assert "Something is missing" in refused(session, "edit 2 jmp 2.bomb")


def test_the_status_of_a_script(run: Run) -> None:
    """The exit status is 1 if any command fails; the other commands are executed."""
    done = run("debug", "@imp", input="foo\nstep\n")
    assert done.returncode == 1 and done.stdout.splitlines()[1].startswith("turn 1: ")
    assert run("debug", "@imp", input="step\nquit\nfoo\n").returncode == 0
