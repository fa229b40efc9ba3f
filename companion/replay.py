"""What each move of a timed run waited for: the run is made again over the rules, move by move, beside its wave.

A move waits for the last changes of the literals of the term that enabled it, and for the last change of its own node.
The environment's moves have the guards that docs/FORMATS.md tells in words."""

from __future__ import annotations

from dataclasses import dataclass, field

from companion.program import Refusal
from companion.rules import Net
from companion.waves import Wave

Term = list[tuple[int, bool]]
START = -1  # the cause of what is enabled from the start on


@dataclass(frozen=True)
class Replay:
    """For each move, from 0 on, the one since which it was enabled (`START` for the start), and all that it waited
    for."""

    cause: list[int]
    waits: list[list[int]]


@dataclass
class Guards:
    """The guards of a net by the numbers of its nodes: the terms that raise a node and those that lower it; for the
    acknowledge of an `out` channel the rails instead, bit by bit; and which nodes read which."""

    up: list[list[Term]]
    down: list[list[Term]]
    rails: dict[int, list[tuple[int, int]]] = field(default_factory=dict)
    readers: list[list[int]] = field(default_factory=list)
    reset: int = -1


def guards_of(net: Net) -> Guards:
    """The guards of all nodes, also of those that the environment moves."""
    number = net.numbers

    def terms(node: str, sign: str) -> list[Term]:
        return [[(number[name], high) for name, high in term] for term in net.terms(node, sign)]

    made = Guards([terms(it, "+") for it in net.first], [terms(it, "-") for it in net.first])
    made.reset = number["reset"] if net.version == "prs 2" else -1
    free: Term = [(made.reset, False)] if made.reset >= 0 else []  # nothing of this moves while reset is high
    made.up[number["go"]] = [free]
    for channel in net.channels:
        ack = number[f"{channel.name}.a"]
        pairs = [(number[f"{channel.name}.{bit}.t"], number[f"{channel.name}.{bit}.f"]) for bit in range(channel.width)]
        if channel.kind == "out":
            made.rails[ack] = pairs
        elif channel.kind == "in":
            for high, low in pairs:
                for rail, other in ((high, low), (low, high)):
                    made.up[rail] = [[(ack, False), (other, False), *free]]
                    made.down[rail] = [[(ack, True), *free]]
    found: list[dict[int, None]] = [{} for _ in net.first]
    for node, sides in enumerate(zip(made.up, made.down)):
        reads = {at for side in sides for term in side for at, _ in term}
        for at in reads | {at for pair in made.rails.get(node, []) for at in pair}:
            found[at][node] = None
    made.readers = [list(it) for it in found]
    return made


class Run:
    """The run as far as it was made again: the value and the last move of each node, and for each node that may move
    now the move since which it may and what it waited for."""

    def __init__(self, net: Net, wave: Wave) -> None:
        self.guards = guards_of(net)
        self.values = [wave.first[name] == "1" for name in net.first]
        self.last = [START] * len(self.values)
        self.since: list[tuple[int, list[int]] | None] = [None] * len(self.values)
        for node in range(len(self.values)):
            self.look(node, START)

    def enabling(self, node: int) -> Term | None:
        """The literals of a term that lets the node move now, or none."""
        is_high = self.values[node]
        if node in self.guards.rails:
            return self.taking(node, is_high)
        for term in self.guards.down[node] if is_high else self.guards.up[node]:
            if all(self.values[at] == wanted for at, wanted in term):
                return term
        return None

    def taking(self, ack: int, is_high: bool) -> Term | None:
        """The same of the acknowledge of an `out` channel: each bit has one rail high, or all rails are low."""
        pairs = self.guards.rails[ack]
        if self.guards.reset >= 0 and self.values[self.guards.reset]:
            return None
        if is_high:
            return None if any(self.values[at] for pair in pairs for at in pair) else [
                (at, False) for pair in pairs for at in pair
            ]
        if any(self.values[high] == self.values[low] for high, low in pairs):
            return None
        return [(high if self.values[high] else low, True) for high, low in pairs]

    def look(self, node: int, now: int) -> None:
        """Notes whether the node may move, behind the move `now`."""
        term = self.enabling(node)
        if term is None:
            self.since[node] = None
        elif self.since[node] is None:
            waits = {self.last[at] for at, _ in term} | {self.last[node]}
            self.since[node] = (now, sorted(waits - {START}))

    def move(self, node: int, now: int) -> tuple[int, list[int]]:
        """Makes a move; tells since when it was enabled, and what it waited for."""
        if node == self.guards.reset:  # it falls where no rule is enabled: the move before was the last of these
            found = (now - 1, [now - 1] if now else [])
        else:
            told = self.since[node]
            if told is None:
                raise Refusal(f"move {now + 1} of the run isn't one that the rules allow, as they are read here")
            found = told
        self.values[node] = not self.values[node]
        self.last[node], self.since[node] = now, None
        self.look(node, now)
        for reader in self.guards.readers[node]:
            self.look(reader, now)
        return found


def replayed(net: Net, wave: Wave) -> Replay:
    """What each move of the run waited for."""
    run, made = Run(net, wave), Replay([], [])
    for now, change in enumerate(wave.changes):
        cause, waits = run.move(net.numbers[change.node], now)
        made.cause.append(cause)
        made.waits.append(waits)
    return made


def chain_to(replay: Replay, end: int) -> list[int]:
    """The chain of causes of a move, itself last."""
    found = [end]
    while replay.cause[found[-1]] != START:
        found.append(replay.cause[found[-1]])
    return found[::-1]


def latest(replay: Replay, wave: Wave, end: int) -> list[float]:
    """For each move up to `end` how late it could come, at the latest, with `end` at its time, where all moves keep
    their delays and each waits for what it waited for; infinite where `end` doesn't wait for it."""
    times = [change.time for change in wave.changes[: end + 1]]
    late = [float("inf")] * (end + 1)
    late[end] = times[end]
    for move in range(end, -1, -1):
        cause = replay.cause[move]
        begun = late[move] - (times[move] - (times[cause] if cause != START else 0))
        for before in replay.waits[move]:
            late[before] = min(late[before], begun)
    return late
