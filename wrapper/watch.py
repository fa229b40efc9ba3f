"""How long a build takes, and how far it is."""

from __future__ import annotations

import contextlib
import glob
import heapq
import os
import subprocess
import sys
import threading
import time

from wrapper.crates import minutes, say

LOOP = "sum(i * i for i in range(8_000_000))"
LOOP_TOOK = 2.1  # seconds that it took on the machine of docs/GATE.md, on each of its processors at once
OFTEN = 30  # seconds between two lines
ENOUGH = 240  # seconds after which the time that was spent tells what is left; crates that were proved before took none


def processors() -> int:
    """How many processors there are to use."""
    return len(os.sched_getaffinity(0))


def pace() -> float:
    """How many times as long a processor takes here, with all others at work, as on the machine of the minutes."""
    began = time.time()
    runs = [subprocess.Popen([sys.executable, "-c", LOOP], stderr=subprocess.DEVNULL) for _ in range(processors())]
    for run in runs:
        run.wait()
    return (time.time() - began) / LOOP_TOOK


def planned(below: dict[str, list[str]], costs: dict[str, float], left: set[str]) -> float:
    """How long the crates that are left take, as many side by side as there are processors, those first that have the
    longest chain behind them."""
    above: dict[str, list[str]] = {crate: [it for it in left if crate in below[it]] for crate in left}
    chain: dict[str, float] = {}

    def behind(crate: str) -> float:
        if crate not in chain:
            chain[crate] = costs[crate] + max(map(behind, above[crate]), default=0.0)
        return chain[crate]

    waits = {crate: sum(it in left for it in below[crate]) for crate in left}
    ready = sorted((crate for crate in left if not waits[crate]), key=behind)
    running: list[tuple[float, str]] = []
    now = 0.0
    while ready or running:
        while ready and len(running) < processors():
            crate = ready.pop()
            heapq.heappush(running, (now + costs[crate], crate))
        now, done = heapq.heappop(running)
        for crate in above[done]:
            waits[crate] -= 1
            if not waits[crate]:
                ready = sorted([*ready, crate], key=behind)
    return now


def in_words(span: float) -> str:
    """A time to wait for, from minutes."""
    return f"{span:.0f} minutes" if span > 1.5 else f"{60 * span:.0f} s"


class Watch:
    """Tells each half minute how far a build is."""

    def __init__(self, below: dict[str, list[str]]) -> None:
        self.below, self.costs, self.left = below, minutes(below), set(below)
        self.began, self.slow, self.ended = time.time(), pace(), threading.Event()
        self.turn = threading.Lock()  # of what is left, which one thread changes and another one tells
        self.whole = planned(below, self.costs, self.left)

    def proved(self, crate: str, is_kept: bool) -> None:
        """Notes that a crate is proved, or was by an earlier run."""
        with self.turn:
            before = planned(self.below, self.costs, self.left)
            self.left.discard(crate)
            if is_kept:  # which took no time, so the time that is spent says nothing of it
                self.whole -= before - planned(self.below, self.costs, self.left)

    def rest(self) -> float:
        """The minutes that are left, by what was told of the crates and by how long those took that are done."""
        spent, rest = (time.time() - self.began) / 60, planned(self.below, self.costs, self.left)
        if 60 * spent > ENOUGH and self.whole - rest > 1:
            self.slow = min(max(spent / (self.whole - rest), self.slow / 2), 3 * self.slow)
        return max(self.slow * rest, 0.2)

    def line(self) -> str:
        """How far it is."""
        under_way = ", ".join(sorted(under_way_here())) or "the next ones are begun"
        if not self.left:
            return f"all {len(self.below)} crates are proved; compiling"
        done = len(self.below) - len(self.left)
        left = f"about {in_words(self.rest())} are left"
        return f"{done:2} of {len(self.below)} crates are proved; under way: {under_way}; {left}"

    def run(self) -> None:
        """Says it, until the build has ended."""
        while not self.ended.wait(OFTEN):
            with self.turn:
                line = self.line()
            say(line)


def under_way_here() -> set[str]:
    """The crates that provers of this machine are at, which the wrapper has begun."""
    parents, crates = {}, {}
    for path in glob.glob("/proc/[0-9]*"):
        with contextlib.suppress(OSError, ValueError, IndexError):
            with open(f"{path}/stat", encoding="utf-8", errors="replace") as file:
                parents[int(path[6:])] = int(file.read().rpartition(")")[2].split()[1])
            with open(f"{path}/cmdline", encoding="utf-8", errors="replace") as file:
                words = file.read().split("\0")
            if words[0].endswith("/rattle") and "--crate-name" in words:
                crates[int(path[6:])] = words[words.index("--crate-name") + 1]
    found = set()
    for process, crate in crates.items():
        while process in parents and process != os.getpid():
            process = parents[process]
        if process == os.getpid():
            found.add(crate)
    return found
