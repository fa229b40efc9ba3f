"""Devices: what the environment of a circuit does, as Python classes. A device of one's own extends `Device`:

    from companion.devices import Device

    class Squares(Device):
        def took(self, channel, value):
            self.send("B", value * value)
"""

from __future__ import annotations

from collections import deque

from companion.program import Refusal
from companion.rules import Channel


class Device:
    """A device that takes whatever comes and sends what is put into its queues. `channels` are its channels by name, in
    the order in which they are named for it or else in that of the rule file; `image` the words of the file behind
    `--image`, by address. Both are there before `start`."""

    channels: dict[str, Channel]
    image: dict[int, int]
    due: dict[str, deque[int]]

    def __new__(cls) -> Device:
        """So that a class with an `__init__` of its own has these too."""
        made = super().__new__(cls)
        made.channels, made.image, made.due = {}, {}, {}
        return made

    def start(self) -> None:
        """Called once, before the first run."""

    def send(self, channel: str, value: int) -> None:
        """Puts a value into the queue of an `in` channel."""
        own = self.channels.get(channel)
        if own is None or own.kind != "in":
            there = ", ".join(self.of_kind("in")) or "none"
            raise ValueError(f"{channel!r} is no `in` channel of this device; those are {there}")
        self.due.setdefault(channel, deque()).append(value)

    def offer(self, channel: str) -> int | None:
        """The value that is sent next on an `in` channel, or None where none is due."""
        queue = self.due.get(channel)
        return queue.popleft() if queue else None

    def ready(self, channel: str) -> bool:
        """Whether one more value is taken on an `out` channel."""
        return True

    def took(self, channel: str, value: int) -> None:
        """Called with each value that passed on an `out` channel."""

    def of_kind(self, kind: str) -> list[str]:
        """The names of its channels of a kind, `in` or `out`."""
        return [it.name for it in self.channels.values() if it.kind == kind]


class Sink(Device):
    """Takes whatever comes, and sends nothing."""


class Source(Device):
    """Sends the words of the image on each `in` channel, or 0 to 9 where there is none, modulo 2 to the width."""

    def start(self) -> None:
        for name in self.of_kind("in"):
            for value in self.image.values() if self.image else range(10):
                self.send(name, value % 2 ** self.channels[name].width)


class Echo(Device):
    """What `bench --peer echo` of chpc is: it holds 0 at first, and sends what it holds, ten times in all; once it has
    taken v it holds v + 1."""

    def start(self) -> None:
        self.held: int | None = 0
        self.left = 10

    def offer(self, channel: str) -> int | None:
        if self.held is None or self.left == 0:
            return None
        value, self.held = self.held, None
        self.left -= 1
        return value % 2 ** self.channels[channel].width

    def took(self, channel: str, value: int) -> None:
        self.held = (value + 1) % 2**64


class Fifo(Device):
    """Sends back on the n-th of its `in` channels what it takes on the n-th of its `out` channels, in that order."""

    def took(self, channel: str, value: int) -> None:
        ways = dict(zip(self.of_kind("out"), self.of_kind("in")))
        if channel in ways:
            self.send(ways[channel], value)


class Memory(Device):
    """A memory of the words of the image; all others are 0. Its first `out` channel asks for the word at an address,
    its `in` channel answers. Where it has a second `out` channel, the highest bit of what is asked says whether to
    write, and the word to be written comes there."""

    def start(self) -> None:
        asking, answering = self.of_kind("out"), self.of_kind("in")
        if len(answering) != 1 or len(asking) not in (1, 2):
            known = ", ".join(self.channels) or "none"
            forms = "`memory:ASK,ANSWER` or `memory:ASK,ANSWER,WORD`"
            raise Refusal(f"which channels of {known} are the memory's? {forms}", 2)
        self.answer, self.ask = answering[0], asking[0]
        self.word = asking[1] if len(asking) == 2 else ""
        self.bits = self.channels[self.ask].width - bool(self.word)
        self.words = dict(self.image)
        self.asked: deque[int] = deque()
        self.written: deque[int] = deque()

    def took(self, channel: str, value: int) -> None:
        (self.asked if channel == self.ask else self.written).append(value)
        while self.asked and (self.written or not self.is_write(self.asked[0])):
            asked = self.asked.popleft()
            address = asked % 2**self.bits
            if self.is_write(asked):
                self.words[address] = self.written.popleft()
            else:
                self.send(self.answer, self.words.get(address, 0))

    def is_write(self, asked: int) -> bool:
        """Whether what is asked is to write."""
        return bool(self.word) and asked >> self.bits == 1


KNOWN: dict[str, type[Device]] = {"source": Source, "sink": Sink, "echo": Echo, "fifo": Fifo, "memory": Memory}
