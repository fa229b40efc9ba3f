"""How a device drives a circuit: by runs that go on. What passes on each channel is one history, in whatever order
moves come, and a script is taken in its order; so a longer script keeps what has passed. A run tells the device what
passed, what it answers comes to the end of the script, and the circuit is run again, until the device has no answer."""

from __future__ import annotations

import argparse
import os
from collections.abc import Sequence
from dataclasses import dataclass, field

from companion import options, program
from companion.devices import Device
from companion.loaded import Player, beside, players
from companion.onward import Lost, Onward
from companion.options import Parser
from companion.program import Answer, Refusal
from companion.rules import Channel, net_in
from companion.terminal import Progress
from companion.until import MOST_MOVES
from companion.waves import Report, read_report

MOST_VALUES = 65_536  # of a script
ENOUGH = 3_000_000  # moves of all runs from the start, after which runs go on where the last one ended


def device_words(made: argparse.ArgumentParser) -> None:
    """The words that tell of devices besides their names."""
    about = "the words of a memory, or those that a source sends, in hexadecimal"
    made.add_argument("--image", metavar="FILE", help=about)


@dataclass
class Drive:
    """Runs of one rule file against devices. `sent` is the script of `in` channels, `allowed` how many values are
    taken on those `out` channels whose device says when, `heard` how many values of each `out` channel the device
    knows, `before` how many values the last run had on each channel, `ahead` for how many a device is asked at once,
    `made` how many moves were made by runs from the start, and `known` what has passed by the last run."""

    rules: str
    players: list[Player]
    steps: int
    script: str
    sent: dict[str, list[int]] = field(default_factory=dict)
    allowed: dict[str, int] = field(default_factory=dict)
    heard: dict[str, int] = field(default_factory=dict)
    before: dict[str, int] = field(default_factory=dict)
    ahead: int = 1
    runs: int = 0
    made: int = 0
    onward: Onward | None = None
    known: dict[str, list[int]] = field(default_factory=dict)

    def __post_init__(self) -> None:
        for player, channel in self.ends():
            if channel.kind == "in":
                self.sent[channel.name] = []
            else:
                self.heard[channel.name] = 0
                if type(player.device).ready is not Device.ready:
                    self.allowed[channel.name] = 0

    def ends(self) -> list[tuple[Player, Channel]]:
        """The channels with their devices."""
        return [(player, channel) for player in self.players for channel in player.channels]

    def text(self) -> str:
        """The script so far."""
        lines = [f"{name}: {' '.join(map(str, values))}".rstrip() for name, values in self.sent.items()]
        return "".join(f"{line}\n" for line in [*lines, *(f"{name}: {it}" for name, it in self.allowed.items())])

    def offer(self, player: Player, channel: Channel) -> bool:
        """Asks a device for a value on an `in` channel; whether it has one."""
        value = player.call("offer", channel.name)
        if value is None:
            return False
        if not isinstance(value, int) or not 0 <= value < 2**channel.width:
            most = 2**channel.width - 1
            raise Refusal(f"{player.name}: it offers {value!r} on {channel.name}, which takes numbers from 0 to {most}")
        if sum(map(len, self.sent.values())) >= MOST_VALUES:
            raise Refusal(f"a script has at most {MOST_VALUES} values, and the device sends more")
        self.sent[channel.name].append(int(value))
        return True

    def ask(self, passed: dict[str, list[int]]) -> bool:
        """Asks the devices on channels that were idle at the end of the last run: whether there is something new."""
        is_new = False
        for player, channel in self.ends():
            name, count = channel.name, len(passed.get(channel.name, []))
            if count < self.before.get(name, count):
                continue
            most = count + self.ahead
            while channel.kind == "in" and len(self.sent[name]) < most and self.offer(player, channel):
                is_new = True
            while name in self.allowed and self.allowed[name] < most and player.call("ready", name):
                self.allowed[name] += 1
                is_new = True
        return is_new

    def hear(self, passed: dict[str, list[int]]) -> bool:
        """Tells the devices what passed since, a value of each channel in turn: whether they have something new."""
        is_new = False
        while True:
            outs = [(player, channel) for player, channel in self.ends() if channel.kind == "out"]
            some = [it for it in outs if self.heard[it[1].name] < len(passed[it[1].name])]
            if not some:
                return is_new
            for player, channel in some:
                value = passed[channel.name][self.heard[channel.name]]
                self.heard[channel.name] += 1
                player.call("took", channel.name, value)
                is_new |= self.ask(passed)

    def run(self, *more: str) -> Answer:
        """A run from the start under the script so far; it may end in a hazard."""
        options.write(self.script, self.text())
        return program.wanted(["simulate", self.rules, self.script, "--steps", str(self.steps), *more], (0, 5))

    def next(self) -> Report:
        """The next run: from the start, or where these have made many moves from where the last one ended."""
        self.before = {**{name: len(values) for name, values in self.sent.items()}, **self.allowed}
        self.runs += 1
        if self.onward is not None:
            try:
                return self.onward.run(self.sent, self.allowed, self.steps)
            except Lost:
                self.onward, self.made = None, -MOST_MOVES * MOST_VALUES
        report = read_report(self.run().text())
        self.made += report.moves
        if self.made > ENOUGH and report.end == ["rest"]:
            try:
                self.onward = Onward(self.rules, report, os.path.dirname(self.script))
                self.onward.begin(self.script, self.steps)
            except Lost:
                self.onward, self.made = None, -MOST_MOVES * MOST_VALUES
        return report

    def compare(self, report: Report) -> None:
        """Refuses a circuit of which a longer run doesn't begin as a shorter one."""
        for name, values in self.known.items():
            came = report.passed.get(name, values)
            least = len(values) if report.end == ["rest"] else min(len(values), len(came))
            if came[:least] != values[:least]:
                raise Refusal(f"{name}: other values pass in a longer run, so no device can drive {self.rules}")
        self.known = {name: list(values) for name, values in report.passed.items()}

    def drive(self, progress: Progress) -> Answer:
        """Runs until no device has anything new, or a run is cut off or ends in a hazard. Of what was sent the script
        then has what passed, and one value more; the answer is that of a run from the start under it."""
        self.ask({})
        while True:
            report = self.next()
            self.compare(report)
            progress.count = f", {self.runs} runs, {report.moves} moves"
            self.ahead = min(2 * self.ahead, MOST_VALUES)
            if report.end != ["rest"] or not (self.hear(report.passed) | self.ask(report.passed)):
                break
        for name, values in self.sent.items():
            del values[len(report.passed[name]) + 1 :]
        answer = self.run()
        self.compare(read_report(answer.text()))
        return answer


def drive_of(rules: str, words: Sequence[str], image: str | None, steps: int = MOST_MOVES) -> Drive:
    """The runs of a rule file against the devices that words name."""
    return Drive(rules, players(words, image, net_in(rules).channels), steps, os.path.join(options.room(), "script"))


def driven_script(rules: str, words: Sequence[str], folder: str) -> str:
    """The script that comes of a run against the devices of a test file's line; their files lie in a folder."""
    made = Parser("test", "device")
    made.add_argument("devices", nargs="+")
    device_words(made)
    given = made.parse_args(list(words))
    image = os.path.join(folder, given.image) if given.image else None
    drive = drive_of(rules, [beside(word, folder) for word in given.devices], image)
    drive.drive(Progress("device"))
    return drive.text()
