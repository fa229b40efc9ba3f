"""The events of a run by an order, of which chpc tells only what passed in all. Runs of fewer moves, by halves, show by
which move each value passed."""

from __future__ import annotations

from collections.abc import Iterator
from dataclasses import dataclass

from companion import program
from companion.waves import Report, read_report


@dataclass(frozen=True)
class Untimed:
    """A run of a rule file under a script by an order, with the words for it."""

    rules: str
    script: str
    words: tuple[str, ...]

    def report(self, steps: int) -> Report:
        """The report of so many moves of it."""
        words = ["simulate", self.rules, self.script, *self.words, "--steps", str(steps)]
        return read_report(program.wanted(words, (0, 5)).text())

    def events(self, most: int) -> tuple[list[tuple[int, str, int]], Report]:
        """The number of the move, the channel and the value of each event, in order; and the report of the whole."""
        whole = self.report(most)
        return list(self.between(0, self.report(0), whole.moves, whole)), whole

    def between(self, low: int, before: Report, high: int, after: Report) -> Iterator[tuple[int, str, int]]:
        """The events behind the move `low` and up to the move `high`."""
        if before.passed == after.passed:
            return
        if high - low == 1:
            for name, values in after.passed.items():
                for value in values[len(before.passed[name]) :]:
                    yield high, name, value
            return
        middle = (low + high) // 2
        half = self.report(middle)
        yield from self.between(low, before, middle, half)
        yield from self.between(middle, half, high, after)
