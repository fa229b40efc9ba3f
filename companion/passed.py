"""What passed in a run, in one order over all channels."""

from __future__ import annotations

from collections.abc import Iterator, Sequence
from dataclasses import dataclass, field

from companion.compiled import Compiled
from companion.parts import Part
from companion.rules import Channel
from companion.waves import Wave, bits


@dataclass(frozen=True)
class Event:
    """A value that passed: the number of the move, the time of a timed run, the channel, which of the channel's values
    it is, from 0, its digits on the rails, the highest first, and the statements at its ends, as places and texts."""

    move: int
    time: int | None
    channel: str
    place: int
    digits: str
    ends: list[str] = field(default_factory=list)

    def number(self) -> int | None:
        """The value; none where not each bit has one, as it may be in files that `compile` didn't write."""
        return int(self.digits, 2) if set(self.digits) <= {"0", "1"} else None

    def value(self, in_hex: bool = False) -> str:
        """The value for people."""
        number = self.number()
        return self.digits if number is None else hex(number) if in_hex else str(number)


def events_of(wave: Wave, channels: Sequence[Channel], circuit: Compiled | None = None) -> Iterator[Event]:
    """The values that passed on some channels in a timed run, in order; where the circuit is told with the statements.
    A value passes at the rise of the acknowledge, as the rails then are."""
    values = dict(wave.first)
    scene = circuit.scene(values) if circuit else None
    acks = {f"{it.name}.a": it for it in channels}
    counts = {it.name: 0 for it in channels}
    for move, change in enumerate(wave.changes, 1):
        values[change.node] = change.value
        if change.value != "1" or change.node not in acks:
            continue
        channel = acks[change.node]
        ends: list[Part] = []
        if scene:
            sites = [it for kind in ("send", "receive") for it in scene.sites.get((kind, channel.name), [])]
            ends = [part for part in sites if scene.is_active(part)]
        told = [scene.called_on(scene.path(part)) for part in ends] if scene else []
        digits = bits(values, channel.name, channel.width)
        yield Event(move, change.time, channel.name, counts[channel.name], digits, told)
        counts[channel.name] += 1
