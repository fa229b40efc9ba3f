"""Runs that go on where the last one ended: of a rule file in whose `node` lines stand the values that the nodes had
then. So n answers of a device needn't cost n runs from the start. It is a short cut: what such runs tell is compared
with a whole run at the end."""

from __future__ import annotations

import os

from companion import options, program
from companion.passed import events_of
from companion.rules import net_in
from companion.waves import Report, Wave, wave_of


class Lost(Exception):
    """From where the last run ended none goes on this way."""


class Onward:
    """Such runs of one rule file. `values` are those of the nodes at the end of the last one, `passed` what has passed
    on each channel to the outside, `moves` how many moves were made."""

    def __init__(self, rules: str, report: Report, folder: str) -> None:
        self.rules, self.net = rules, net_in(rules)
        self.lines = options.read(rules).decode("latin-1").split("\n")
        self.outside = [it for it in self.net.channels if it.kind != "chan"]
        self.passed = {it.name: list(report.passed[it.name]) for it in self.outside}
        self.moves = report.moves
        self.values: dict[str, str] = {}
        self.names = [os.path.join(folder, name) for name in ("onward.prs", "onward.script")]

    def begin(self, script: str, steps: int) -> None:
        """Looks up where the run under this script ends."""
        self.values = self.wave(self.rules, script, steps).last()

    def wave(self, rules: str, script: str, steps: int) -> Wave:
        """The wave of a run that ends well."""
        try:
            wave = wave_of(rules, script, None, steps)
        except program.Ended as ended:
            raise Lost from ended
        if wave.status:
            raise Lost
        return wave

    def text(self) -> str:
        """The rule file in which nodes begin as the last run ended. Internal channels are left out, so that their wires
        may be high; `go` rises once more, and the program mustn't have ended."""
        if self.values["done"] == "1":
            raise Lost
        made = ["prs 1"]
        for line in self.lines[1:]:
            words = line.split(" ")
            if words[0] == "node" and words[1] not in ("go", "done"):
                made.append(f"node {words[1]} {self.values[words[1]]}")
            elif words[0] != "chan":
                made.append(line)
        return "\n".join(made)

    def run(self, sent: dict[str, list[int]], allowed: dict[str, int], steps: int) -> Report:
        """Goes on under a script whose front has passed. The report is that of all runs together, and tells of channels
        to the outside alone."""
        lines = [f"{name}: {' '.join(map(str, values[len(self.passed[name]) :]))}" for name, values in sent.items()]
        lines += [f"{name}: {count - len(self.passed[name])}" for name, count in allowed.items()]
        options.write(self.names[0], self.text())
        options.write(self.names[1], "".join(f"{line}\n" for line in lines))
        left = steps - self.moves
        wave = self.wave(self.names[0], self.names[1], left + 1)
        for event in events_of(wave, self.outside):
            number = event.number()
            if number is not None:
                self.passed[event.channel].append(number)
        self.values = wave.last()
        self.moves += len(wave.changes) - 1
        end = "spent" if len(wave.changes) > left else "rest"
        return Report([end], self.moves, -1, self.values["done"] == "1", self.passed)
