"""`cover`: what of a program never happened in some runs."""

from __future__ import annotations

import sys
from collections.abc import Iterator, Sequence
from dataclasses import dataclass

from companion import options, program
from companion.chp_tree import Stmt
from companion.fit import Fit, circuit_of
from companion.options import Parser, natural
from companion.parts import Part, Tree
from companion.program import Refusal
from companion.rules import Net
from companion.terminal import Paint, Progress
from companion.waits import guard_rails
from companion.waves import wave_of

FOUND = 20  # the status where something never happened

ABOUT = """\
What of a program never happened in the timed runs of its circuit under some scripts: statements that
were never begun, arms that were never taken, guards that were never true, and channels on which
nothing passed. What lies in an arm that was never taken isn't told again. The status is 20 where
something is found."""


@dataclass(frozen=True)
class Missed:
    """Something that never happened: what, in a sentence, and its bytes in the text."""

    what: str
    start: int
    end: int


@dataclass
class Count:
    """How many of how many happened."""

    had: int = 0
    all: int = 0

    def note(self, happened: bool) -> bool:
        """Counts one more; tells whether it happened."""
        self.had += happened
        self.all += 1
        return happened


class Cover:
    """What happened in some runs: the nodes that rose. `counts` are those of statements, arms, guards and channels."""

    def __init__(self, net: Net, tree: Tree, fit: Fit, rose: set[str]) -> None:
        self.net = net
        self.tree = tree
        self.fit = fit
        self.rose = rose
        self.counts = {what: Count() for what in ("statements begun", "arms taken", "guards true", "channels used")}

    def missed(self) -> Iterator[Missed]:
        """What never happened, in no order."""
        for part in (*(it.children[0] for it in self.tree.procs), self.tree.root.children[0]):
            yield from self.in_part(part, False)
        assert self.fit.program is not None
        for decl in self.fit.program.of_kind("in", "out", "chan").values():
            if decl.start >= 0 and not self.counts["channels used"].note(f"{decl.name}.a" in self.rose):
                yield Missed(f"nothing passed on {decl.name}", decl.start, decl.end)

    def in_part(self, part: Part, is_told: bool) -> Iterator[Missed]:
        """The same in a part; `is_told` is whether something round it is known never to have happened."""
        stmt = self.fit.statements.get(part)
        began = part.request in self.rose
        if stmt and (part.parent is None or self.fit.statements.get(part.parent) is not stmt):
            self.counts["statements begun"].note(began)
            if not began and not is_told:
                yield Missed(f"never begun: {self.fit.source(part)}", stmt.start, stmt.end)
        is_told = is_told or not began
        rails = guard_rails(self.net, part) if part.kind in ("select", "again") else []
        for at, child in enumerate(part.children):
            if rails and stmt:
                yield from self.arm(stmt, at, rails[at][0], child, is_told)
            yield from self.in_part(child, is_told or bool(rails) and child.request not in self.rose)

    def arm(self, stmt: Stmt, at: int, rail: str, child: Part, is_told: bool) -> Iterator[Missed]:
        """What is to be said of an arm."""
        was_true = self.counts["guards true"].note(rail in self.rose)
        taken = self.counts["arms taken"].note(child.request in self.rose)
        guard = stmt.guards[at]
        text = self.fit.cut(guard.start, guard.end, 40)
        if not is_told and not was_true:
            yield Missed(f"this guard was never true, so its arm was never taken: {text}", guard.start, guard.end)
        elif not is_told and not taken:
            yield Missed(f"this arm was never taken, though its guard was true: {text}", guard.start, guard.end)


def risen(rules: str, script: str, steps: int | None) -> set[str]:
    """The nodes that rose in a run."""
    return {change.node for change in wave_of(rules, script, None, steps).changes if change.value == "1"}


def parser() -> Parser:
    """The words of `cover`."""
    made = Parser("cover", ABOUT)
    made.add_argument("file", metavar="F", help="the program")
    made.add_argument("scripts", metavar="SCRIPT", nargs="+", help="what the environment does, in each run")
    made.add_argument("--steps", metavar="N", type=natural, help="the most moves of each run (100,000)")
    made.buffer()
    return made


def main(words: Sequence[str]) -> int:
    """Runs the command: 0 where all happened, else 20."""
    given = parser().parse_args(words)
    with Progress(f"what never happens in {given.file}") as progress:
        tree, net, fit = circuit_of(given.file, given.buffer)
        if fit.why:
            raise Refusal(fit.why)
        rules = f"{options.room()}/cover.prs"
        more = [f"--buffer={given.buffer}"] if given.buffer is not None else []
        options.write(rules, program.wanted(["compile", given.file, *more]).out)
        rose: set[str] = set()
        for number, script in enumerate(given.scripts, 1):
            progress.count = f", script {number} of {len(given.scripts)}"
            rose |= risen(rules, script, given.steps)
        cover = Cover(net, tree, fit, rose)
        missed = sorted(set(cover.missed()), key=lambda it: (it.start, it.end))
    paint = Paint(sys.stdout)
    for it in missed:
        print(f"{fit.text.told(it.start)}: {it.what}")
        print("\n".join(fit.text.shown(it.start, it.end, paint)))
    for what, count in cover.counts.items():
        print(f"{what}: {count.had} of {count.all}")
    return FOUND if missed else 0
