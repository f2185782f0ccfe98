"""`watch`: a battle in the terminal, forwards and backwards."""
from __future__ import annotations

import time
from collections.abc import Callable, Sequence
from dataclasses import dataclass, field
from functools import partial

import click
from prompt_toolkit.application import Application, get_app
from prompt_toolkit.key_binding import KeyBindings, KeyPressEvent
from prompt_toolkit.layout import FormattedTextControl, Layout, Window
from prompt_toolkit.output import ColorDepth

from ..analysis.formatting import BattleFormatter, pluralize
from ..battle.conditions import Condition, search
from ..battle.history import History
from ..battle.labels import Sources
from ..engine.calls import Match
from ..pictures.terminal import Fragments, canvas_of, draw, styles_of
from .layout import TURN, checked_turn, command
from .options import BattleOptions, battle_options
from .reporting import is_coloured

KEYS = [
    "space play",
    "left, right a turn (shift: ten)",
    "up, down speed",
    "home, end",
    "j k l back stop play",
    "s x d splits ends dies (S X D: back)",
    "[ ] round",
    "q quit",
]
# The frames in a second, the seconds of a battle at the first speed, and the factor by which a key changes the speed.
FRAMES, SECONDS, FASTER = 20, 20, 1.6
# What separates the keys, and the least number of other lines around the core: the title, the warriors, the last turn.
GAP, LINES = "   ", 3


@dataclass
class Show:
    """A round that is watched. `turn` is the turn that is shown; `way` is 1 if it moves forwards, -1 if backwards, and
    0 if it stays. `rate` is the number of turns in a second; 0 stands for the rate at which the battle takes SECONDS.
    """

    match: Match
    history: History
    turn: int
    way: int = 0
    rate: float = 0
    shown_at: float = field(default_factory=time.monotonic)

    def __post_init__(self) -> None:
        self.formatter = BattleFormatter(self.history, Sources(self.history))
        self.moment, self.rate = float(self.turn), self.rate or max(1, self.history.end / SECONDS)

    def go(self, turn: float, way: int = 0) -> None:
        self.moment = min(max(0.0, turn), float(self.history.end))
        self.turn, self.way = int(self.moment), way

    def advance(self) -> None:
        """Moves by the turns of the time since the last frame."""
        now, before = time.monotonic(), self.shown_at
        self.shown_at = now
        if self.way:
            moment = self.moment + self.way * self.rate * (now - before)
            self.go(moment, self.way if 0 < moment < self.history.end else 0)

    def leap(self, word: str, forward: bool) -> None:
        found = search(self.history, [[Condition(word)]], self.turn, forward)
        self.go(found[0] if found else self.turn)

    def show_round(self, number: int) -> None:
        if 0 <= number < self.match.rounds:
            self.history, self.rate = History(self.match, number), 0
            self.__post_init__()
            self.go(0)

    def text(self) -> Fragments:
        """Returns the screen: the title, the core, the warriors, the turn in words and the keys."""
        self.advance()
        size, history = get_app().output.get_size(), self.history
        state = {1: "▶", -1: "◀", 0: "■"}[self.way]
        cycle, styles = history.block(self.turn).cycle(self.turn), styles_of(history)
        lines: Fragments = [
            ("bold", f"{state} turn {self.turn} of {history.end}, cycle {cycle}"),
            ("", f", round {history.round}, {self.rate:,.0f} turns/s\n"),
        ]
        keys = wrapped(KEYS, GAP, size.columns)
        core = draw(history, self.turn, canvas_of(history.core, size.columns, size.rows - LINES - len(keys)))
        rows = sum(text.count("\n") for _, text in core)
        deaths = dict(history.deaths(self.turn).tolist())
        lines += core
        for number, name in enumerate(history.names):
            count = len(history.block(self.turn).queue(number, self.turn))
            fate = f"died in turn {deaths[number]}" if number in deaths else pluralize(count, "process")
            lines += [(f"fg:{styles[number + 1]} bold", f"{name} "), ("", f"{fate}   ")]
        ending = [self.formatter.ending()] if self.turn == history.end else []
        words = [self.formatter.turn(self.turn)] if self.turn and not self.way else []
        # The last turn takes the lines that the core, the title, the warriors and the keys leave.
        room = max(1, size.rows - rows - 2 - len(keys))
        said = wrapped("; ".join(ending + words).split(), " ", size.columns)[:room] or [""]
        return [*lines, *(("", f"\n{line}") for line in said), *(("italic", f"\n{line}") for line in keys)]


def wrapped(parts: Sequence[str], gap: str, columns: int) -> list[str]:
    """Returns lines of these parts; a part is cut if it is longer than a line."""
    lines = list[str]()
    for part in parts:
        if lines and len(lines[-1] + gap + part) <= columns:
            lines[-1] += gap + part
        else:
            lines.append(part[:columns])
    return lines


def keys_of(show: Show) -> KeyBindings:
    """Returns what the keys do, as on the site."""
    bindings = KeyBindings()
    acts: dict[str, Callable[[], object]] = {
        " ": lambda: show.go(show.turn, 0 if show.way else 1),
        "j": lambda: show.go(show.turn, -1),
        "k": lambda: show.go(show.turn),
        "l": lambda: show.go(show.turn, 1),
        "left": lambda: show.go(show.turn - 1),
        "right": lambda: show.go(show.turn + 1),
        "s-left": lambda: show.go(show.turn - 10),
        "s-right": lambda: show.go(show.turn + 10),
        "up": lambda: setattr(show, "rate", min(show.rate * FASTER, 1e7)),
        "down": lambda: setattr(show, "rate", max(show.rate / FASTER, 1)),
        "home": lambda: show.go(0),
        "end": lambda: show.go(show.history.end),
        "[": lambda: show.show_round(show.history.round - 1),
        "]": lambda: show.show_round(show.history.round + 1),
    }
    for key, word in (("s", "splits"), ("x", "ends"), ("d", "dies")):
        acts[key] = partial(show.leap, word, True)
        acts[key.upper()] = partial(show.leap, word, False)

    def call(act: Callable[[], object], event: KeyPressEvent) -> None:
        act()

    def leave(event: KeyPressEvent) -> None:
        event.app.exit()

    for key, act in acts.items():
        bindings.add(key)(partial(call, act))
    for key in ("q", "escape", "c-c", "c-d"):
        bindings.add(key)(leave)
    return bindings


@command("corewar watch dwarf.red imp.red", "corewar watch -r 10 --round 3 dwarf.red imp.red")
@battle_options(one_round=True)
@TURN
def watch(options: BattleOptions, turn: int) -> None:
    """Watch a battle in the terminal, forwards and backwards.

    Each cell has the colour of the warrior that wrote it last, and a light one if a process is there. The core fills
    the terminal: with half blocks of two cells if they fit, otherwise with Braille characters of eight or more.
    """
    stream = click.get_text_stream("stdout")
    if not stream.isatty() or not click.get_text_stream("stdin").isatty():
        raise click.UsageError("expected a terminal; `corewar picture` draws a battle into a file")
    match = options.match()
    history = History(match, options.round)
    show = Show(match, history, checked_turn(turn, history.end, "--turn"), 0 if turn else 1)
    control = FormattedTextControl(show.text, show_cursor=False)
    Application[None](
        Layout(Window(control, wrap_lines=False)),
        key_bindings=keys_of(show),
        full_screen=True,
        refresh_interval=1 / FRAMES,
        color_depth=None if is_coloured() else ColorDepth.DEPTH_1_BIT,
    ).run()
