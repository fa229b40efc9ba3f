"""`view`: a wave for people, the causes of any move, and how long channels take."""

from __future__ import annotations

import os
from collections.abc import Sequence

from companion import options
from companion.hazards import ENDED
from companion.options import Parser
from companion.program import Refusal
from companion.rules import net_in
from companion.signals import signals_of
from companion.terminal import Progress
from companion.times import between, passings, table
from companion.until import add_until, node_at, steps_of
from companion.vectors import gtkw, vector_dump
from companion.waves import causes_of, wave_of

ABOUT = """\
Writes the wave of a timed run with its channels and variables as vectors: the value while each bit
has one rail high, z between two values. Beside NAME.vcd stands NAME.gtkw, which gtkwave opens. Then
it tells of each channel how long a value stood on its rails until the acknowledge rose (latency),
and how long it took from one such rise to the next (cycle time), in the units of the delays."""


def parser() -> Parser:
    """The words of `view`."""
    made = Parser("view", ABOUT)
    made.run_files()
    add_until(made)
    made.add_argument("--hex", action="store_true", help="NAME.gtkw shows values in hexadecimal")
    made.add_argument(
        "--to", metavar="NAME", help="the files that are written are NAME.vcd and NAME.gtkw (as PRS is called)"
    )
    causes = "tells the chain of causes of a node's N-th move, or of its last one, and writes nothing"
    made.add_argument("--causes-of", metavar="NODE[:N]", help=causes)
    made.add_argument(
        "--latency", nargs=2, metavar=("X", "Y"), help="tells also how long from the n-th value on X to the n-th on Y"
    )
    return made


def main(words: Sequence[str]) -> int:
    """Runs the command: 0, or 5 where the run ends in a hazard."""
    given = parser().parse_args(words)
    with Progress(f"the wave of {given.rules}"):
        net = net_in(given.rules)
        wave = wave_of(given.rules, given.script, given.delays, steps_of(given, net))
        if given.causes_of:
            number = node_at(wave, given.causes_of)
            chain = causes_of(given.rules, given.script, given.delays, number)
    if given.causes_of:
        print(f"move {number} of the run, and the moves by which it came, each the cause of the next")
        print("\n".join([*chain, *([ENDED] if wave.status else [])]))
        return wave.status
    signals = signals_of(net)
    channels = [it for it in signals if it.what == "channel"]
    found = passings(wave, channels)
    for name in given.latency or []:
        if name not in found:
            raise Refusal(f"there is no channel {name}", 2)
    to = given.to or options.stem(given.rules)
    options.write(f"{to}.vcd", vector_dump(wave, signals))
    options.write(f"{to}.gtkw", gtkw(f"{os.path.basename(to)}.vcd", signals, given.hex))
    vectors = f"{len(channels)} channels and {len(signals) - len(channels)} variables as vectors"
    print(f"{to}.vcd: {len(wave.changes)} moves of {len(wave.first)} nodes, {vectors}; {to}.gtkw shows them in gtkwave")
    print("\n".join(table(found)))
    if given.latency:
        print(between(found, *given.latency))
    if wave.status:
        print(ENDED)
    return wave.status
