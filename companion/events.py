"""`events`: what passed in a run, in one order over all channels."""

from __future__ import annotations

from argparse import Namespace
from collections.abc import Sequence
from dataclasses import dataclass

from companion.as_json import put
from companion.compiled import Compiled, compiled
from companion.hazards import ENDED
from companion.options import Parser, natural
from companion.passed import Event, events_of
from companion.program import Refusal
from companion.rules import Net, net_in
from companion.stat import aligned
from companion.terminal import Progress
from companion.until import MOST_MOVES, STEPS, add_until, cut_note, cut_off, steps_of
from companion.untimed import Untimed
from companion.waves import Report, wave_of

ABOUT = """\
What passed on all channels in a timed run, in the order of its moves and so of time: the number of the
move by which a value passed, which raises the channel's acknowledge, the time, the channel and the
value; and with --program the statements that sent and took it. The run is that of `chpc waves`, or,
with --order, one of `chpc simulate`, which has no times; its statements are those by which the same
value of the channel passes in the timed run."""


@dataclass(frozen=True)
class Listed:
    """All events of a run, how many moves it has, whether it ends in a hazard, the net, and notes."""

    net: Net
    events: list[Event]
    moves: int
    has_hazard: bool
    notes: list[str]


def table(found: list[Event], in_hex: bool, with_ends: bool) -> list[str]:
    """A line for each event."""
    wide = max(len("channel"), *(len(it.channel) for it in found), 0)
    rows = [["move", "time", "channel".ljust(wide), "value"]]
    for it in found:
        time = "-" if it.time is None else str(it.time)
        rows.append([str(it.move), time, it.channel.ljust(wide), it.value(in_hex)])
    lines = aligned(rows, 0)
    if not with_ends:
        return lines
    ends = ["statement", *(" and ".join(it.ends) for it in found)]
    return [f"{line}  {told}".rstrip() for line, told in zip(lines, ends)]


def parser() -> Parser:
    """The words of `events`."""
    made = Parser("events", ABOUT)
    made.run_files()
    made.program_file(required=False)
    add_until(made)
    made.add_argument("--order", metavar="NAME", help="a run by this order, as by `simulate`, in place of a timed one")
    made.add_argument("--seed", metavar="N", type=natural, help="where the order `random` begins (0)")
    made.add_argument("--channel", metavar="X", action="append", help="only this channel; may come several times")
    made.add_argument("--hex", action="store_true", help="values in hexadecimal")
    made.add_argument("--json", action="store_true", help="the same as one JSON object")
    return made


def in_time(given: Namespace) -> Listed:
    """The events of a timed run."""
    circuit = compiled(given.rules, given.program, given.buffer) if given.program else None
    net = circuit.net if circuit else net_in(given.rules)
    wave = wave_of(given.rules, given.script, given.delays, steps_of(given, net))
    notes = [*(circuit.notes if circuit else []), *cut_off(given, wave)]
    return Listed(net, list(events_of(wave, net.channels, circuit)), len(wave.changes), wave.status == 5, notes)


def in_timed_run(given: Namespace, circuit: Compiled, report: Report) -> dict[tuple[str, int], Event]:
    """The events of a timed run in which as much passes as in a reported one, by channel and place. In as many moves it
    may be less on one channel and more on another."""
    steps = max(report.moves, 1)
    while True:
        wave = wave_of(given.rules, given.script, None, steps)
        found = {(it.channel, it.place): it for it in events_of(wave, circuit.net.channels, circuit)}
        lacks = any((name, len(values) - 1) not in found for name, values in report.passed.items() if values)
        if not lacks or len(wave.changes) < steps or steps == MOST_MOVES:
            return found
        steps = min(2 * steps, MOST_MOVES)


def by_order(given: Namespace) -> Listed:
    """The events of a run by an order. On each channel the same values pass as in the timed run, by the same
    statements, so these are looked up there."""
    if given.delays or given.until:
        raise Refusal("--order goes without --delays and --until: these are of timed runs", 2)
    circuit = compiled(given.rules, given.program, given.buffer) if given.program else None
    net = circuit.net if circuit else net_in(given.rules)
    seed = ["--seed", str(given.seed)] if given.seed is not None else []
    run = Untimed(given.rules, given.script, ("--order", given.order, *seed))
    found, report = run.events(given.steps if given.steps is not None else STEPS)
    timed = in_timed_run(given, circuit, report) if circuit else {}
    counts = {it.name: 0 for it in net.channels}
    events, unlike = [], 0
    for move, name, value in found:
        other = timed.get((name, counts[name]))
        is_same = other is not None and other.number() == value
        unlike += circuit is not None and not is_same
        events.append(Event(move, None, name, counts[name], f"{value:b}", other.ends if other and is_same else []))
        counts[name] += 1
    notes = [*(circuit.notes if circuit else []), *cut_note(report.moves, report.end)]
    if unlike:
        notes.append(f"note: no statements are told of {unlike} values that don't pass in the timed run")
    return Listed(net, events, report.moves, report.end[0] not in ("rest", "spent"), notes)


def main(words: Sequence[str]) -> int:
    """Runs the command: 0, or 5 where the run ends in a hazard."""
    given = parser().parse_args(words)
    if given.buffer is not None and given.program is None:
        raise Refusal("--buffer says where the program has a buffer, so it wants --program too", 2)
    if given.seed is not None and given.order is None:
        raise Refusal("--seed goes with --order random", 2)
    with Progress(f"the run of {given.rules}"):
        listed = by_order(given) if given.order else in_time(given)
    for name in given.channel or []:
        if listed.net.channel(name) is None:
            raise Refusal(f"there is no channel {name}", 2)
    found = [it for it in listed.events if not given.channel or it.channel in given.channel]
    if given.json:
        events = [
            {"move": it.move, "time": it.time, "channel": it.channel, "value": it.number(), "statements": it.ends}
            for it in found
        ]
        put({"notes": listed.notes, "events": events, "moves": listed.moves, "hazard": listed.has_hazard})
    else:
        print("\n".join([*listed.notes, *table(found, given.hex, given.program is not None)]))
        if listed.has_hazard:
            print(ENDED)
    return 5 if listed.has_hazard else 0
