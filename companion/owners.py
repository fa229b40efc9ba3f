"""To which statement each move of a run belongs, and in which turn of which loops it comes."""

from __future__ import annotations

from collections.abc import Iterator

from companion.parts import Part, Tree
from companion.replay import START, Replay
from companion.rules import Net
from companion.waves import Wave

Owner = Part | str  # the part of a statement, or the environment with what it moves
LOOPS = ("loop", "again")


def outside_of(net: Net) -> dict[str, str]:
    """The nodes that the environment moves, each with what that is to people."""
    found = {"go": "the environment starts the program", "reset": "the environment ends reset"}
    for it in net.channels:
        if it.kind == "in":
            rails = (f"{it.name}.{bit}.{rail}" for bit in range(it.width) for rail in "tf")
            found |= dict.fromkeys(rails, f"the environment sends on {it.name}")
        elif it.kind == "out":
            found[f"{it.name}.a"] = f"the environment takes from {it.name}"
    return found


def owners_of(net: Net, tree: Tree, wave: Wave, replay: Replay) -> list[Owner]:
    """The owner of each move: the part that the node lies in, or the environment. A node of a channel or a variable
    belongs to the statement whose move was the cause: the one that sends, takes or writes."""
    names = list(net.first)
    found: dict[str, Owner] = {"done": tree.root}
    for part in tree.walk():
        for stretch in part.own_nodes():
            found.update((names[number], part) for number in stretch)
    found.update(outside_of(net))
    owners: list[Owner] = []
    for change, cause in zip(wave.changes, replay.cause):
        owner = found.get(change.node)
        owners.append(owner if owner is not None else owners[cause] if cause != START else tree.root)
    return owners


def turn_request(part: Part, net: Net) -> str:
    """The node by whose rise a turn of a loop begins."""
    return part.children[0].request if part.kind == "loop" else list(net.first)[part.first + 1]


class Turns:
    """Counts the turns of loops along a run; a procedure is in the loops round the call that was begun last."""

    def __init__(self, net: Net, tree: Tree) -> None:
        self.count = {part: 0 for part in tree.walk() if part.kind in LOOPS}
        self.begins = {turn_request(part, net): part for part in self.count}
        self.calls = {part.request: part for part in tree.walk() if part.kind == "call"}
        self.now: dict[str, Part] = {}

    def note(self, node: str, value: str) -> None:
        """Notes a move."""
        if value == "1" and node in self.begins:
            self.count[self.begins[node]] += 1
        if value == "1" and node in self.calls:
            self.now[self.calls[node].name] = self.calls[node]

    def loops(self, owner: Owner) -> Iterator[tuple[Part, int]]:
        """The loops that an owner lies in, and is, each with the number of its turn."""
        if isinstance(owner, str):
            return
        for part in reversed(owner.path()):
            if part in self.count:
                yield part, self.count[part]
            elif part.kind == "procedure" and part.name in self.now:
                yield from self.loops(self.now[part.name])
