"""Rule files, read into nodes, channels and rules. What is a rule file and what isn't is told by chpc."""

from __future__ import annotations

import functools
import re
from dataclasses import dataclass, field

from companion.labels import called
from companion.program import Refusal

Term = list[tuple[str, bool]]  # literals: a node's name, and whether it has to be high


@dataclass(frozen=True)
class Channel:
    """A channel: `in`, `out` or `chan`, its name and its width."""

    kind: str
    name: str
    width: int


@dataclass
class Net:
    """What a rule file says: its version, the first value of each node in order of numbers, its channels, and the lines
    of its rules by node and sign."""

    version: str
    first: dict[str, str] = field(default_factory=dict)
    channels: list[Channel] = field(default_factory=list)
    rules: dict[tuple[str, str], str] = field(default_factory=dict)

    def terms(self, node: str, sign: str) -> list[Term]:
        """The terms of the rule that raises (`+`) or lowers (`-`) a node; none where it has no such rule."""
        guard = self.rules.get((node, sign))
        return [] if guard is None else terms_of(guard)

    @functools.cached_property
    def numbers(self) -> dict[str, int]:
        """Each node's number by its name."""
        return {name: number for number, name in enumerate(self.first)}

    def channel(self, name: str) -> Channel | None:
        """The channel of this name, if there is one."""
        return next((it for it in self.channels if it.name == name), None)


def terms_of(guard: str) -> list[Term]:
    """A guard as its terms."""
    return [[(it.lstrip("~"), not it.startswith("~")) for it in term.split(" & ")] for term in guard.split(" | ")]


def literals_of(guard: str) -> int:
    """How many literals a guard has."""
    return guard.count(" & ") + guard.count(" | ") + 1


def series_of(guard: str) -> int:
    """How many literals the longest of its terms has: so many transistors stand in series."""
    return max(term.count(" & ") for term in guard.split(" | ")) + 1


def read_net(text: str, name: str) -> Net:
    """Reads the text of a rule file that has this name."""
    lines = text.split("\n")
    net = Net(lines[0])
    for number, line in enumerate(lines[1:], 2):
        words = line.split(" ")
        if words[0] == "node" and len(words) == 3:
            net.first[words[1]] = words[2]
        elif words[0] in ("in", "out", "chan") and len(words) == 3 and words[2].isdigit():
            net.channels.append(Channel(words[0], words[1], int(words[2])))
        elif words[0] == "rule" and " -> " in line:
            guard, _, turned = line[len("rule ") :].rpartition(" -> ")
            net.rules[turned[:-1], turned[-1:]] = guard
        elif line or number < len(lines):
            raise Refusal(f"{called(name)}:{number}: this line is none of a rule file{other(text)}", 8)
    return net


def other(text: str) -> str:
    """What a text looks like that is no rule file, and what to do; nothing where it isn't known."""
    return "; it looks like a program: `chpx compile FILE > FILE.prs` makes its rule file" if is_program(text) else ""


def is_program(text: str) -> bool:
    """Whether a text begins as programs do."""
    return re.match(r"(\s|//[^\n]*\n)*(in|out|chan|var|proc|begin)\b", text) is not None


def net_in(name: str) -> Net:
    """Reads the rule file of this name."""
    try:
        with open(name, encoding="latin-1", newline="") as file:
            return read_net(file.read(), name)
    except OSError as error:
        raise Refusal(f"{called(name)} can't be read: {error.strerror}", 3) from error
