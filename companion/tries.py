"""The runs by which `hunt` looks for a hazard, and how they are made side by side."""

from __future__ import annotations

import concurrent.futures
import os
import random
from collections.abc import Iterator, Sequence
from dataclasses import dataclass

from companion import options, program
from companion.terminal import Progress

SLOW, FAST = 1000, 0  # what a slow and a fast node take where all others take 1
TOGETHER = 64  # runs between two looks at what they found


@dataclass(frozen=True)
class Try:
    """A run: what it is, in words; the words behind the rule file and the script; and the delay file that it goes by,
    or none where it goes by an order."""

    what: str
    words: tuple[str, ...]
    delays: str | None = None


def orders(seeds: int) -> Iterator[Try]:
    """A run by each order, the random one with several seeds."""
    for name in ("lowest", "oldest", "newest"):
        yield Try(f"the order {name}", ("--order", name))
    for seed in range(1, seeds + 1):
        yield Try(f"the order random with seed {seed}", ("--order", "random", "--seed", str(seed)))


def sweeps(nodes: Sequence[str]) -> Iterator[Try]:
    """A run in which no delay is given, then for each node one in which it alone is slow, and one in which it alone is
    fast."""
    yield Try("delays that are all alike", (), "")
    for name in nodes:
        yield Try(f"{name} slow", (), f"{name} {SLOW} {SLOW}\n")
    for name in nodes:
        yield Try(f"{name} fast", (), f"{name} {FAST} {FAST}\n")


def mixtures(nodes: Sequence[str], count: int) -> Iterator[Try]:
    """Runs in which each node takes a time of its own for each direction, drawn from a seed."""
    for seed in range(1, count + 1):
        draw = random.Random(seed)
        lines = [f"{name} {draw.choice((1, 3, 10, 30))} {draw.choice((1, 3, 10, 30))}\n" for name in nodes]
        yield Try(f"mixed delays of seed {seed}", (), "".join(lines))


class Bench:
    """Makes runs of one rule file under one script. `folder` is for delay files; `count` how many runs were made."""

    def __init__(self, rules: str, script: str, steps: int | None, folder: str) -> None:
        self.rules = rules
        self.script = script
        self.more = ["--steps", str(steps)] if steps is not None else []
        self.folder = folder
        self.count = 0

    def delay_file(self, text: str, name: str = "delays") -> str:
        """Writes a delay file, and tells its name."""
        path = os.path.join(self.folder, name)
        options.write(path, text)
        return path

    def run(self, it: Try, name: str = "delays") -> program.Answer:
        """Makes a run: it ends with 0, or with 5 where there was a hazard. Any other end stops the hunt."""
        words = list(it.words)
        if it.delays is not None:
            words += ["--delays", self.delay_file(it.delays, name)]
        return program.wanted(["simulate", self.rules, self.script, *words, *self.more], (0, 5))

    def shows(self, delays: str) -> bool:
        """Whether the run by some delays ends in a hazard."""
        self.count += 1
        return self.run(Try("", (), delays)).status == 5

    def first(self, tries: Sequence[Try], progress: Progress) -> tuple[Try, program.Answer] | None:
        """The first of the runs in their order that ends in a hazard. They are made side by side, some at a time, so
        which one is found doesn't depend on how many processors there are."""
        with concurrent.futures.ThreadPoolExecutor(len(os.sched_getaffinity(0))) as pool:
            for at in range(0, len(tries), TOGETHER):
                some = tries[at : at + TOGETHER]
                progress.count = f", {at} of {len(tries)} runs"
                answers = list(pool.map(self.run, some, [f"delays-{number}" for number in range(len(some))]))
                self.count += len(some)
                for it, answer in zip(some, answers):
                    if answer.status == 5:
                        return it, answer
        return None
