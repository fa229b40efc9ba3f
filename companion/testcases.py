"""The cases of test files: what is expected of a program under a script."""

from __future__ import annotations

from dataclasses import dataclass, field

from companion.chp_tokens import number_of
from companion.forms import VALUES
from companion.until import MOST_MOVES

ORDERS = VALUES["--order"]


@dataclass(frozen=True)
class Values:
    """The values that are wanted on a channel, as they are written; whether more may follow; and the line."""

    words: tuple[str, ...]
    is_open: bool
    line: int

    def numbers(self) -> list[int]:
        """The values as numbers."""
        return [number_of(word) or 0 for word in self.words]

    def shown(self, value: int) -> str:
        """A value as the line writes its own."""
        return hex(value) if any(word.startswith("0x") for word in self.words) else str(value)


@dataclass
class Case:
    """A case: its file, line and title, the program and how it is compiled and driven, and what is wanted. `moves` and
    `time` are the most of each, `refused` a cause with its place, `end` how a run has to end, and `places` the lines at
    which these were told."""

    file: str
    line: int
    title: str
    program: str
    options: tuple[str, ...] = ()
    device: tuple[str, ...] = ()
    script: dict[str, tuple[str, int]] = field(default_factory=dict)
    wanted: dict[str, Values] = field(default_factory=dict)
    end: str = "rest"
    done: bool | None = None
    moves: int | None = None
    time: int | None = None
    refused: tuple[int, str] | None = None
    orders: tuple[str, ...] = ORDERS
    seeds: int = 3
    delays: int = 2
    steps: int = MOST_MOVES
    places: dict[str, int] = field(default_factory=dict)

    def place(self, what: str) -> int:
        """The line that tells one of these, or that of the case."""
        return self.places.get(what, self.line)

    def script_text(self) -> str:
        """The script of the case."""
        return "".join(f"{line}\n" for line, _ in self.script.values())
