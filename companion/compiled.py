"""A rule file beside the program that it was compiled from: its net, its parts, and their places in the text."""

from __future__ import annotations

from dataclasses import dataclass, field

from companion import options, program
from companion.fit import Fit, fitted, tree_for
from companion.parts import Tree
from companion.program import Refusal
from companion.rules import Net, net_in, read_net
from companion.scene import Scene
from companion.waves import Report


@dataclass(frozen=True)
class Compiled:
    """The circuit of a program: its net and its parts with their places; and notes on what doesn't fit, in lines."""

    net: Net
    tree: Tree
    fit: Fit
    notes: list[str] = field(default_factory=list)

    def scene(self, values: dict[str, str], report: Report | None = None, in_hex: bool = False) -> Scene:
        """What is known where its nodes have these values."""
        return Scene(self.net, values, self.tree, self.fit, report or Report([], 0, 0, False, {}), in_hex)


def compiled(rules: str, source: str, buffer: str | None) -> Compiled:
    """The circuit in a rule file, as that of the program in a file, with a buffer on a channel. Where `compile` writes
    another file with the same nodes, a note says so."""
    net, data = net_in(rules), options.read(rules)
    words = ["compile", source, *(["--reset"] if net.version == "prs 2" else [])]
    words += [f"--buffer={buffer}"] if buffer is not None else []
    made = program.wanted(words).out
    notes = []
    if made != data:
        if list(read_net(made.decode("latin-1"), source).first) != list(net.first):
            raise Refusal(f"{rules} isn't the rule file of {source}{with_what(net, buffer)}: its nodes are others")
        other = ", or the buffer is on another channel" if buffer is not None else ""
        written = "isn't what `compile` writes: its rules were changed"
        notes.append(f"note: {rules} has the nodes of {source}, but {written}{other}")
    tree = tree_for(source, net, buffer)
    fit = fitted(options.read(source), source, tree, net, buffer)
    return Compiled(net, tree, fit, notes + ([f"note: {fit.why}"] if fit.why else []))


def with_what(net: Net, buffer: str | None) -> str:
    """With which options the program was compiled, and a hint where the net may have a buffer."""
    if buffer is not None:
        return f" with a buffer on {buffer}, nor that with --reset"
    last = net.channels[-1] if net.channels else None
    hint = ", nor that with --reset"
    if last and last.kind == "chan" and last.name.startswith("B"):
        hint += " (has it a buffer? then --buffer X says on which channel)"
    return hint
