"""Waves for a viewer: the wave of a run with channels and variables as vectors beside the nodes."""

from __future__ import annotations

from dataclasses import dataclass

from companion.waves import Wave, bits

DIGITS = "".join(chr(33 + digit) for digit in range(94))


@dataclass(frozen=True)
class Signal:
    """A channel or a variable: whether it is a `channel` or a `variable`, its name and its width."""

    what: str
    name: str
    width: int

    def rails(self) -> list[str]:
        """The names of its rails."""
        return [f"{self.name}.{bit}.{rail}" for bit in range(self.width) for rail in "tf"]

    def label(self) -> str:
        """Its name with its bits, as viewers write it."""
        return f"{self.name}[{self.width - 1}:0]" if self.width > 1 else self.name


def identifier(number: int) -> str:
    """The ID of a dump's variable: its number in base 94, the lowest digit first."""
    text = DIGITS[number % 94]
    while number >= 94:
        number //= 94
        text += DIGITS[number % 94]
    return text


def shown_value(values: dict[str, str], signal: Signal) -> str:
    """A signal's value as a vector: its digits where each bit has one rail high; x where some bit has both; else z, as
    between two values."""
    digits = bits(values, signal.name, signal.width)
    if set(digits) <= {"0", "1"}:
        return digits
    return ("x" if "x" in digits else "z") * signal.width


def line_of(digits: str, name: str) -> str:
    """The change of a vector, or of a single bit."""
    return f"{digits}{name}" if len(digits) == 1 else f"b{digits} {name}"


def vector_dump(wave: Wave, signals: list[Signal]) -> str:
    """A dump of the wave: the signals as vectors, and below them, in a scope of their own, all nodes."""
    ids = {signal: identifier(number) for number, signal in enumerate(signals)}
    nodes = {name: identifier(len(signals) + number) for number, name in enumerate(wave.first)}
    lines = ["$timescale 1 ns $end", "$scope module top $end"]
    lines += [
        f"$var wire {it.width} {ids[it]} {it.name}{f' [{it.width - 1}:0]' if it.width > 1 else ''} $end"
        for it in signals
    ]
    lines += ["$scope module nodes $end", *(f"$var wire 1 {it} {name} $end" for name, it in nodes.items())]
    lines += ["$upscope $end", "$upscope $end", "$enddefinitions $end", "#0"]
    values = dict(wave.first)
    told = {signal: shown_value(values, signal) for signal in signals}
    lines += [line_of(told[it], ids[it]) for it in signals]
    lines += [f"{value}{nodes[name]}" for name, value in wave.first.items()]
    of_rail = {rail: signal for signal in signals for rail in signal.rails()}
    now = 0
    touched: dict[Signal, None] = {}

    def settle() -> None:
        """Tells the signals whose value is another one at the end of a time."""
        for signal in touched:
            value = shown_value(values, signal)
            if value != told[signal]:
                told[signal] = value
                lines.append(line_of(value, ids[signal]))
        touched.clear()

    for change in wave.changes:
        if change.time != now:
            settle()
            now = change.time
            lines.append(f"#{now}")
        values[change.node] = change.value
        lines.append(f"{change.value}{nodes[change.node]}")
        if change.node in of_rail:
            touched[of_rail[change.node]] = None
    settle()
    return "\n".join(lines) + "\n"


def gtkw(dump: str, signals: list[Signal], in_hex: bool = False) -> str:
    """A file for gtkwave beside a dump: channels with their acknowledges, then variables."""
    number = "@22" if in_hex else "@24"
    lines = ["[*] written by chpx view", f'[dumpfile] "{dump}"', "[timestart] 0", "[size] 1200 800"]
    lines += ["@200", "-channels"]
    for signal in signals:
        if signal.what == "channel":
            lines += [number, f"top.{signal.label()}", "@28", f"top.nodes.{signal.name}.a"]
    lines += ["@200", "-variables", number]
    lines += [f"top.{signal.label()}" for signal in signals if signal.what == "variable"]
    lines += ["@200", "-start and end", "@28", "top.nodes.go", "top.nodes.done"]
    return "\n".join(lines) + "\n"
