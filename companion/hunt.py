"""`hunt`: looks for hazards in a rule file that was changed, or made elsewhere."""

from __future__ import annotations

from collections.abc import Sequence

from companion import options
from companion.hazards import story
from companion.options import Parser
from companion.rules import Net, net_in
from companion.shrink import shortest
from companion.terminal import Progress
from companion.tries import Bench, Try, mixtures, orders, sweeps
from companion.waves import causes_of, read_report, wave_of

ABOUT = """\
Looks for a hazard in a rule file that was changed or made elsewhere: runs by each order, by several
seeds of the order random, with each node in turn slow and in turn fast, and with mixed delays, side
by side on all processors. For the first hazard it tells the shortest delay file that shows it and
whose move did it, and writes that file and the wave.

That nothing is found proves nothing: there are more orders than can be tried. And in a file that
`chpc compile` wrote there is nothing to find, under any script and in any order: that is proved.
The status is 5 where a hazard was found, else 0."""


def parser() -> Parser:
    """The words of `hunt`."""
    made = Parser("hunt", ABOUT)
    made.add_argument("rules", metavar="PRS", help="the rule file")
    made.add_argument("script", metavar="SCRIPT", help="what the environment sends and takes")
    made.add_argument("--seeds", metavar="N", type=options.natural, default=10, help="seeds of the order random (10)")
    made.add_argument("--mixed", metavar="N", type=options.natural, default=20, help="runs with mixed delays (20)")
    made.add_argument("--steps", metavar="N", type=options.natural, help="the most moves of a run (100,000)")
    made.add_argument(
        "--to", metavar="NAME", help="the files that are written are NAME.delays and NAME.vcd (PRS-hazard)"
    )
    return made


def moving(net: Net) -> list[str]:
    """The nodes that can move: those with rules, and those that the environment moves."""
    with_rules = {node for node, _ in net.rules}
    wires = {"go"}
    for channel in net.channels:
        if channel.kind == "in":
            wires |= {f"{channel.name}.{bit}.{rail}" for bit in range(channel.width) for rail in "tf"}
        elif channel.kind == "out":
            wires.add(f"{channel.name}.a")
    return [name for name in net.first if name in with_rules or name in wires]


def all_tries(nodes: list[str], seeds: int, mixed: int) -> list[Try]:
    """All runs of a hunt, in the order in which they are made."""
    return [*orders(seeds), *sweeps(nodes), *mixtures(nodes, mixed)]


def as_delays(bench: Bench, found: Try, nodes: list[str], progress: Progress, mixed: int) -> str | None:
    """A delay file that shows a hazard: that of the run that was found, or where it went by an order the first one that
    does."""
    if found.delays is not None:
        return found.delays
    other = bench.first([*sweeps(nodes), *mixtures(nodes, mixed)], progress)
    return other[0].delays if other else None


def told(bench: Bench, net: Net, found: Try, delays: str | None, to: str) -> list[str]:
    """What is said of a hazard that a run found; its delay file and its wave are written."""
    lines = [f"found by {found.what}; {bench.count} runs were begun"]
    again = f"chpc simulate {bench.rules} {bench.script}"
    if delays is None:
        return [*lines, f"no delay file was found that shows it too: {again} {' '.join(found.words)} does"]
    short = shortest(delays, bench.shows)
    report = read_report(bench.run(Try("", (), short)).text())
    options.write(f"{to}.delays", short)
    wave = wave_of(bench.rules, bench.script, f"{to}.delays", report.moves)
    chain = causes_of(bench.rules, bench.script, f"{to}.delays", report.moves)
    options.write(f"{to}.vcd", wave.data)
    lines += story(net, report, wave, chain)
    lines.append(
        f"the shortest delay file that shows it, {to}.delays{':' if short else ', is empty: each move takes 1'}"
    )
    lines += [f"  {line}" for line in short.splitlines()]
    return [*lines, f"the wave is {to}.vcd; {again} --delays {to}.delays shows it again"]


def nothing(bench: Bench, nodes: list[str], seeds: int, mixed: int) -> list[str]:
    """What is said where no run ended in a hazard."""
    ways = f"{seeds + 3} orders and seeds, each of {len(nodes)} nodes slow and fast"
    return [
        f"no hazard in {bench.count} runs: {ways}, and {mixed} mixtures of delays",
        "that proves nothing: there are more orders than were tried",
    ]


def main(words: Sequence[str]) -> int:
    """Runs the command: 5 where a hazard was found, else 0."""
    given = parser().parse_args(words)
    net = net_in(given.rules)
    nodes = moving(net)
    bench = Bench(given.rules, given.script, given.steps, options.room())
    with Progress(f"hunt in {given.rules}") as progress:
        bench.run(Try("", (), ""))  # what is refused is told before many runs are made
        found = bench.first(all_tries(nodes, given.seeds, given.mixed), progress)
        if found is None:
            lines = nothing(bench, nodes, given.seeds, given.mixed)
        else:
            delays = as_delays(bench, found[0], nodes, progress, given.mixed)
            lines = told(bench, net, found[0], delays, given.to or f"{options.stem(given.rules)}-hazard")
    print("\n".join(lines))
    return 0 if found is None else 5
