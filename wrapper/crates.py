"""The crates of the program, and what each takes to prove."""

from __future__ import annotations

import contextlib
import os
import re
import sys
from collections.abc import Iterator

TOP = os.path.dirname(os.path.dirname(os.path.realpath(__file__)))
CRATES = os.path.join(TOP, "crates")
HOME = os.path.join(CRATES, "chpc")
PROGRAMS = ("chpc", "chp_pace")  # what a build makes
READ = ("src", "specs", "proofs")  # what a crate's proof is made of
LINE = 0.002  # minutes for a line of code and definitions, for a crate that docs/GATE.md doesn't have


def say(text: str) -> None:
    """A line of the wrapper's own."""
    print(f"chpc: {text}", file=sys.stderr, flush=True)


def crates_below(*names: str) -> dict[str, list[str]]:
    """The crates that some crates stand on, and themselves, each with those of the repository that it names."""
    with open(os.path.join(TOP, "crates.txt"), encoding="utf-8") as file:
        lines = [line.split(":") for line in file if ":" in line and not line.startswith("#")]
    named = {words.split()[0]: below.split() for words, below in lines}
    found: dict[str, list[str]] = {}
    left = list(names)
    while left:
        crate = left.pop()
        found[crate] = [it for it in named[crate] if it in named]
        left += [it for it in found[crate] if it not in found]
    return found


def files_of(crate: str, *parts: str) -> Iterator[str]:
    """The files in some folders of a crate."""
    for part in parts:
        for folder, _, names in os.walk(os.path.join(CRATES, crate, part)):
            yield from (path for name in names if os.path.isfile(path := os.path.join(folder, name)))


def minutes(below: dict[str, list[str]]) -> dict[str, float]:
    """What each crate's proof took on the machine of docs/GATE.md, in minutes of a processor."""
    told: dict[str, float] = {}
    with contextlib.suppress(OSError), open(os.path.join(TOP, "docs", "GATE.md"), encoding="utf-8") as file:
        told = {name: float(took) for name, took in re.findall(r"\| ([a-z_0-9]+) \| ([0-9.]+) \|", file.read())}

    def by_lines(crate: str) -> float:
        return LINE * sum(open(file, "rb").read().count(b"\n") for file in files_of(crate, "src", "specs"))

    return {crate: told[crate] if crate in told else by_lines(crate) for crate in below}
