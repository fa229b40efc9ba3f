"""The critical chain of a run, folded by statement and by turn of a loop; cycle times; slack."""

from __future__ import annotations

from dataclasses import dataclass, field

from companion.owners import Owner, Turns, owners_of
from companion.parts import Part, Tree
from companion.replay import START, chain_to, latest, replayed
from companion.rules import Net
from companion.until import passes
from companion.waves import Wave

UNBOUNDED = float("inf")


@dataclass
class Share:
    """What some moves of the chain take together: the time, how many they are, and, for a turn, from when to when."""

    time: int = 0
    moves: int = 0
    begin: int = -1
    end: int = -1

    def add(self, begin: int, end: int) -> None:
        """Counts a move that takes from one time to another."""
        self.time += end - begin
        self.moves += 1
        self.begin = begin if self.begin < 0 else self.begin
        self.end = end


@dataclass
class Cycles:
    """A channel: the times at which its values passed, and the slack of each."""

    times: list[int]
    slack: list[float]

    def gaps(self) -> list[int]:
        """The times from one value to the next."""
        return [after - before for before, after in zip(self.times, self.times[1:])]


@dataclass
class Profile:
    """Where the time of a run goes: the whole chain of causes, as the numbers of its moves from 0, and the part of it
    between two times; its time by owner and by the turns of each loop; of each owner the least slack of its moves; the
    channels."""

    begin: int
    end: int
    whole: list[int]
    chain: list[int]
    owners: dict[Owner, Share] = field(default_factory=dict)
    turns: dict[Part, dict[int, Share]] = field(default_factory=dict)
    slack: dict[Owner, float] = field(default_factory=dict)
    channels: dict[str, Cycles] = field(default_factory=dict)

    def time(self) -> int:
        """How long it is in all."""
        return self.end - self.begin


def profile_of(net: Net, tree: Tree, wave: Wave, end: int, start: int | None) -> Profile:
    """The profile up to the move `end`, since the move `start` or since the start of the run; both from 0."""
    wave = Wave(wave.first, wave.changes[: end + 1])
    replay = replayed(net, wave)
    owners = owners_of(net, tree, wave, replay)
    begin = wave.changes[start].time if start is not None else 0
    whole = chain_to(replay, end)
    chain = [move for move in whole if start is None or move > start]
    made = Profile(begin, wave.changes[end].time, whole, chain)
    on_chain, turns, late = set(made.chain), Turns(net, tree), latest(replay, wave, end)
    for move, change in enumerate(wave.changes):
        turns.note(change.node, change.value)
        if start is None or move > start:
            made.slack[owners[move]] = min(made.slack.get(owners[move], UNBOUNDED), late[move] - change.time)
        if move not in on_chain:
            continue
        cause = replay.cause[move]
        since = max(begin, wave.changes[cause].time if cause != START else 0)
        made.owners.setdefault(owners[move], Share()).add(since, change.time)
        for loop, turn in turns.loops(owners[move]):
            made.turns.setdefault(loop, {}).setdefault(turn, Share()).add(since, change.time)
    for channel in net.channels:
        moves = [number - 1 for number in passes(wave, channel.name)]
        times = [wave.changes[move].time for move in moves]
        made.channels[channel.name] = Cycles(times, [late[move] - wave.changes[move].time for move in moves])
    return made
