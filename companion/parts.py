"""The tree of parts of a circuit, as `chpc expand` prints it."""

from __future__ import annotations

from collections.abc import Iterator
from dataclasses import dataclass, field

from companion import program
from companion.program import Refusal


@dataclass(frozen=True)
class Block:
    """The nodes of a channel or a variable: `what` it is, its name, its first node, and how many it has."""

    what: str
    name: str
    first: int
    count: int


@dataclass(eq=False)
class Part:
    """The part of a statement: its kind, the names of the node that asks it and of the one by which it answers, its
    first node and how many nodes it has with all parts in it; of a procedure, and of a call, the procedure's name."""

    kind: str
    request: str
    answer: str
    first: int
    count: int
    name: str = ""
    parent: Part | None = None
    children: list[Part] = field(default_factory=list)

    def walk(self) -> Iterator[Part]:
        """The part and all in it, parents first."""
        yield self
        for child in self.children:
            yield from child.walk()

    def path(self) -> list[Part]:
        """The parts from the root down to this one."""
        return [*(self.parent.path() if self.parent else []), self]

    def own_nodes(self) -> list[range]:
        """The numbers of its nodes that lie in no child."""
        found, at = [], self.first
        for child in self.children:
            found.append(range(at, child.first))
            at = child.first + child.count
        return [it for it in (*found, range(at, self.first + self.count)) if it]


@dataclass(frozen=True)
class Tree:
    """All parts under the root, the blocks of channels and of variables, and the procedures, whose bodies calls
    share."""

    root: Part
    blocks: list[Block]
    procs: list[Part] = field(default_factory=list)

    def walk(self) -> Iterator[Part]:
        """All parts, in the order of their nodes."""
        for part in (*self.procs, self.root):
            yield from part.walk()

    def channels(self) -> list[Block]:
        """The blocks of channels, in order of declaration."""
        return [it for it in self.blocks if it.what == "channel"]

    def variables(self) -> list[Block]:
        """Those of variables."""
        return [it for it in self.blocks if it.what == "variable"]

    def count(self) -> int:
        """How many nodes the circuit has."""
        return self.root.first + self.root.count


def width_of(block: Block) -> int:
    """How many bits a channel (2w + 1 nodes) or a variable (6w - 1 nodes) has."""
    return (block.count - 1) // 2 if block.what == "channel" else (block.count + 1) // 6


def read_tree(text: str) -> Tree:
    """Reads what `expand` printed. Kinds that aren't known are kept as they are."""
    blocks: list[Block] = []
    above: list[Part] = []
    root: Part | None = None
    for line in text.splitlines():
        level = (len(line) - len(line.lstrip(" "))) // 2
        words = line.split()
        if not above and len(words) == 4:
            blocks.append(Block(words[0], words[1], int(words[2]), int(words[3])))
            continue
        if len(words) != 5 or level > len(above):
            raise Refusal(f"this line of expand can't be read: {line}")
        part = Part(words[0], words[1], words[2], int(words[3]), int(words[4]))
        above = [*above[:level], part]
        if level:
            part.parent = above[level - 1]
            above[level - 1].children.append(part)
        root = root or part
    if root is None:
        raise Refusal("expand told no part")
    return Tree(root, blocks)


def tree_of(name: str) -> Tree:
    """The tree of the program in a file."""
    return read_tree(program.wanted(["expand", name]).text())
