"""Latency and cycle time of channels, from a wave."""

from __future__ import annotations

from dataclasses import dataclass

from companion.vectors import Signal, shown_value
from companion.waves import Wave


@dataclass(frozen=True)
class Passing:
    """A value that passed on a channel: when its rails became valid, and when the acknowledge rose."""

    valid: int
    taken: int


def passings(wave: Wave, channels: list[Signal]) -> dict[str, list[Passing]]:
    """The values that passed on each channel. One passes at the rise of the acknowledge."""
    found: dict[str, list[Passing]] = {it.name: [] for it in channels}
    acks = {f"{it.name}.a": it for it in channels}
    of_rail = {rail: it for it in channels for rail in it.rails()}
    values, valid = dict(wave.first), {it.name: 0 for it in channels}
    for change in wave.changes:
        values[change.node] = change.value
        if change.node in of_rail and change.value == "1":
            signal = of_rail[change.node]
            if set(shown_value(values, signal)) <= {"0", "1"}:
                valid[signal.name] = change.time
        elif change.node in acks and change.value == "1":
            name = acks[change.node].name
            found[name].append(Passing(valid[name], change.time))
    return found


def spread(numbers: list[int]) -> str:
    """The least, the mean and the greatest of some numbers, or a dash."""
    if not numbers:
        return "-"
    if min(numbers) == max(numbers):
        return str(numbers[0])
    return f"{min(numbers)}..{max(numbers)}, mean {sum(numbers) / len(numbers):.1f}"


def table(found: dict[str, list[Passing]]) -> list[str]:
    """A line for each channel: how many values, when the first was taken, how long each stood before it was taken, and
    how long it took from one to the next."""
    rows = [("channel", "values", "first at", "latency", "cycle time")]
    for name, passed in found.items():
        cycles = [after.taken - before.taken for before, after in zip(passed, passed[1:])]
        latency = spread([it.taken - it.valid for it in passed])
        rows.append((name, str(len(passed)), str(passed[0].taken) if passed else "-", latency, spread(cycles)))
    widths = [max(len(row[column]) for row in rows) for column in range(len(rows[0]))]
    return ["  ".join(cell.ljust(wide) for cell, wide in zip(row, widths)).rstrip() for row in rows]


def between(found: dict[str, list[Passing]], front: str, back: str) -> str:
    """How long it took from the n-th value on one channel to the n-th on another."""
    pairs = list(zip(found[front], found[back]))
    return f"from {front} to {back}, value by value: {spread([end.taken - begin.taken for begin, end in pairs])}"
