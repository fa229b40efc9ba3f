"""Value change dumps as `chpc waves` writes them, and what is made of them."""

from __future__ import annotations

from collections.abc import Sequence
from dataclasses import dataclass

from companion import program
from companion.program import Refusal


@dataclass(frozen=True)
class Change:
    """A move: at some time a node took a value, 0 or 1."""

    time: int
    node: str
    value: str


@dataclass(frozen=True)
class Wave:
    """What moved when: the first value of each node in order of numbers, the changes in order, the dump itself, and how
    the run ended: the status of the program."""

    first: dict[str, str]
    changes: list[Change]
    data: bytes = b""
    status: int = 0

    def last(self) -> dict[str, str]:
        """The value of each node behind the last change."""
        values = dict(self.first)
        for change in self.changes:
            values[change.node] = change.value
        return values


def read_wave(text: str) -> Wave:
    """Reads a dump of the profile that docs/FORMATS.md describes."""
    names: dict[str, str] = {}
    first: dict[str, str] = {}
    changes: list[Change] = []
    now = 0
    for line in text.splitlines():
        if line.startswith("#"):
            now = int(line[1:])
        elif line[:1] in ("0", "1"):
            name = names[line[1:]]
            if len(first) < len(names):
                first[name] = line[0]
            else:
                changes.append(Change(now, name, line[0]))
        elif line.startswith("$var"):
            words = line.split()
            names[words[3]] = words[4]
    if len(first) < 2:
        raise Refusal("the wave tells no node")
    return Wave(first, changes)


def run_words(rules: str, script: str, delays: str | None, steps: int | None) -> list[str]:
    """The words of a timed run, behind the command's name."""
    words = [rules, script]
    if delays is not None:
        words += ["--delays", delays]
    return words + (["--steps", str(steps)] if steps is not None else [])


def wave_of(rules: str, script: str, delays: str | None = None, steps: int | None = None) -> Wave:
    """The wave of a timed run, also of one that ends in a hazard."""
    answer = program.wanted(["waves", *run_words(rules, script, delays, steps)], (0, 5))
    wave = read_wave(answer.text())
    return Wave(wave.first, wave.changes, answer.out, answer.status)


def causes_of(rules: str, script: str, delays: str | None = None, steps: int | None = None) -> list[str]:
    """The chain of causes of the last move of a timed run: lines `TIME NODE VALUE delay DELAY`, and one of the time."""
    words = ["waves", *run_words(rules, script, delays, steps), "--causes"]
    return program.wanted(words, (0, 5)).text().splitlines()


@dataclass(frozen=True)
class Report:
    """The report of a run: the words of its first line behind `end`, moves, time (-1 where none is told), whether
    `done` is high, and the values that have passed on each channel."""

    end: list[str]
    moves: int
    time: int
    done: bool
    passed: dict[str, list[int]]


def read_report(text: str) -> Report:
    """Reads a report."""
    lines = [line.split() for line in text.splitlines() if line]
    told = {words[0]: words[1:] for words in lines}
    passed = {words[0][:-1]: [int(word) for word in words[1:]] for words in lines if words[0].endswith(":")}
    time = int(told["time"][0]) if "time" in told else -1
    return Report(told["end"], int(told["moves"][0]), time, told["done"] == ["1"], passed)


def bits(values: dict[str, str], name: str, width: int) -> str:
    """A channel's or a variable's value on its rails, as binary digits, the highest first: 0 and 1 where one rail is
    high, `z` where none is, `x` where both are."""
    digit = {("0", "0"): "z", ("1", "0"): "1", ("0", "1"): "0", ("1", "1"): "x"}
    rails: Sequence[tuple[str, str]] = [(values[f"{name}.{at}.t"], values[f"{name}.{at}.f"]) for at in range(width)]
    return "".join(digit[rail] for rail in reversed(rails))
