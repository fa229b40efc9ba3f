"""What is known where a run stops: which parts are under way, and the values of nodes."""

from __future__ import annotations

import functools
from dataclasses import dataclass

from companion.fit import Fit, name_of
from companion.parts import Part, Tree
from companion.rules import Net
from companion.waves import Report, bits


@dataclass(frozen=True)
class Scene:
    """All that is known where a run stops: the net with the values of its nodes, the parts with their places, and the
    report."""

    net: Net
    values: dict[str, str]
    tree: Tree
    fit: Fit
    report: Report
    in_hex: bool = False

    def is_active(self, part: Part) -> bool:
        """Whether a part's request is high and its answer low."""
        return self.values.get(part.request) == "1" and self.values.get(part.answer) == "0"

    def inside(self, part: Part) -> list[Part]:
        """The parts in this one; in a call the body of its procedure."""
        if part.kind != "call":
            return part.children
        return [child for it in self.tree.procs if it.name == part.name for child in it.children]

    def leaves(self, part: Part) -> list[Part]:
        """The parts under way in this one, itself too, that have none under way in them."""
        if not self.is_active(part):
            return []
        return [leaf for child in self.inside(part) for leaf in self.leaves(child)] or [part]

    def held(self, path: list[Part], repeats: bool = False) -> list[Part]:
        """What is under way in the first part of a path and has to end before its last one comes to its turn; nothing
        where that is over and doesn't come again. `repeats` says whether a repetition lies round the path."""
        part = path[0]
        repeats = repeats or part.kind in ("loop", "again")
        if len(path) > 1 and self.is_active(path[1]):
            return self.held(path[1:], repeats)
        return [] if len(path) > 1 and not repeats and self.is_over(part, path[1]) else self.leaves(part)

    def is_over(self, part: Part, child: Part) -> bool:
        """Whether a part under way is done with one in it, which isn't under way: it is with a later one of a sequence
        or in another arm, and of a parallel composition all have begun."""
        inside = self.inside(part)
        active = [at for at, it in enumerate(inside) if self.is_active(it)]
        if part.kind == "sequence":
            return any(at > inside.index(child) for at in active)
        return part.kind == "parallel" or (part.kind == "select" and bool(active))

    def paths(self, part: Part) -> list[list[Part]]:
        """The parts from the root down to this one; where it lies in a procedure, by each call of that."""
        path = part.path()
        if path[0].kind != "procedure":
            return [path]
        calls = [it for it in self.tree.root.walk() if it.kind == "call" and it.name == path[0].name]
        return [[*call.path(), *path[1:]] for call in calls]

    def path(self, part: Part) -> list[Part]:
        """The same of a part under way, by the call that is under way."""
        paths = self.paths(part)
        return next((path for path in paths if all(self.is_active(it) for it in path[1:])), paths[0])

    def called_on(self, path: list[Part]) -> str:
        """The last part of a path for people; in a procedure with the call."""
        calls = [f", in {self.called(it)}" for it in path if it.kind == "call"]
        return "".join([self.called(path[-1]), *calls])

    @functools.cached_property
    def sites(self) -> dict[tuple[str, str], list[Part]]:
        """The sends and the receives on each channel, by their kind and its name."""
        found: dict[tuple[str, str], list[Part]] = {}
        for part in self.tree.walk():
            if part.kind in ("send", "receive"):
                found.setdefault((part.kind, name_of(part, self.tree, self.net)), []).append(part)
        return found

    def is_still(self) -> bool:
        """Whether the run has come to rest, so that what waits waits for ever unless the environment goes on."""
        return self.report.end == ["rest"]

    def called(self, part: Part) -> str:
        """A part for people: its place and its text, or its kind and its nodes."""
        if self.fit.place(part):
            return f"{self.fit.place(part)}: {self.fit.source(part)}"
        name = part.name or name_of(part, self.tree, self.net)
        return f"{part.kind} {name} ({part.request}, {part.answer})".replace("  ", " ")

    def value(self, name: str, width: int) -> str:
        """The value of a channel or a variable for people; `between values` where not each bit has one."""
        number = self.number(name, width)
        if number is None:
            return f"between values ({bits(self.values, name, width)})"
        return hex(number) if self.in_hex else str(number)

    def number(self, name: str, width: int) -> int | None:
        """The value of a channel or a variable; none where not each bit has one."""
        digits = bits(self.values, name, width)
        return int(digits, 2) if set(digits) <= {"0", "1"} else None
