"""Moves of a run that a person names: `X:3` is the one by which the third value passes on the channel X, and
`NODE:3` the third move of a node."""

from __future__ import annotations

import re
from argparse import Namespace

from companion.options import Parser
from companion.program import Refusal
from companion.rules import Net
from companion.waves import Wave, wave_of

STEPS = 100_000  # the most moves of a run where no other limit is given
MOST_MOVES = 1_000_000  # the greatest limit that may be given
UNTIL = "stops where the N-th value passes on the channel X"


def add_until(made: Parser) -> None:
    """The word `--until`."""
    made.add_argument("--until", metavar="X:N", help=UNTIL)


def passes(wave: Wave, name: str) -> list[int]:
    """The numbers of the moves, from 1, by which values pass on a channel: the rises of its acknowledge."""
    return [number for number, it in enumerate(wave.changes, 1) if it.node == f"{name}.a" and it.value == "1"]


def parted(asked: str) -> tuple[str, int]:
    """A name and a number, which is 0 where none is told."""
    told = re.fullmatch(r"(.*?)(?::(\d+))?", asked)
    assert told is not None
    return told[1], int(told[2]) if told[2] else 0


def value_at(wave: Wave, net: Net, asked: str) -> int:
    """The number of the move of `X:N`, or of the last value on X for `X` alone."""
    name, at = parted(asked)
    if net.channel(name) is None:
        there = ", ".join(it.name for it in net.channels) or "none"
        raise Refusal(f"there is no channel {name or asked}; the channels are {there}", 2)
    moves = passes(wave, name)
    count = f"{len(moves)} value{'' if len(moves) == 1 else 's'}"
    if not 1 <= (at or len(moves)) <= len(moves) or asked.endswith(":0"):
        which = f"so there is no value {at}" if asked != name else "so it has no last one"
        raise Refusal(f"{count} passed on {name} in this run of {len(wave.changes)} moves, {which}", 2)
    return moves[(at or len(moves)) - 1]


def node_at(wave: Wave, asked: str) -> int:
    """The number of the move of `NODE:N`, or of the last move of the node for `NODE` alone."""
    node, at = parted(asked)
    moves = [number for number, change in enumerate(wave.changes, 1) if change.node == node]
    if node not in wave.first:
        raise Refusal(f"there is no node {node}", 2)
    if not moves:
        raise Refusal(f"{node} never moves in this run", 2)
    at = at or len(moves)
    if not 1 <= at <= len(moves):
        raise Refusal(f"{node} moves {len(moves)} times in this run, so it has no move {at}", 2)
    return moves[at - 1]


def move_at(wave: Wave, net: Net, asked: str) -> int:
    """The number of the move of a channel's value, or else of a node's move."""
    name = parted(asked)[0]
    return value_at(wave, net, asked) if net.channel(name) or name not in wave.first else node_at(wave, asked)


def cut_off(given: Namespace, wave: Wave) -> list[str]:
    """A note where the run may have been cut off by the limit of moves, in a line."""
    most = given.steps if given.steps is not None else STEPS
    is_cut = not wave.status and len(wave.changes) >= most and getattr(given, "until", None) is None
    return cut_note(most, ["spent"] if is_cut else ["rest"])


def cut_note(moves: int, end: list[str]) -> list[str]:
    """A note where a run ended since no more moves were allowed."""
    if end != ["spent"]:
        return []
    return [f"note: the run has {moves} moves, as many as are allowed; a greater --steps may let it go on"]


def steps_of(given: Namespace, net: Net) -> int | None:
    """How many moves the run of these words has at most: those up to `--until`, where that stands there."""
    if given.until is None:
        return int(given.steps) if given.steps is not None else None
    if parted(given.until)[1] == 0:
        name = given.until.partition(":")[0] or "X"
        raise Refusal(f"--until wants a channel and a number from 1 on, as {name}:3", 2)
    return value_at(wave_of(given.rules, given.script, given.delays, given.steps), net, given.until)
