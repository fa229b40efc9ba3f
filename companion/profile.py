"""`profile`: where the time of a run goes, by statement, by turn of a loop, and by channel."""

from __future__ import annotations

import sys
from collections.abc import Sequence

from companion.as_json import put
from companion.chain import UNBOUNDED, Cycles, Profile, Share, profile_of
from companion.compiled import compiled
from companion.hazards import ENDED
from companion.options import Parser, natural
from companion.owners import Owner
from companion.program import Refusal
from companion.scene import Scene
from companion.stat import aligned, joined
from companion.terminal import Paint, Progress
from companion.until import cut_off, move_at
from companion.waves import Wave, causes_of, wave_of

ABOUT = """\
Where the time of a timed run goes: the chain of causes of its last move (or of a value, or a node's
move), each move the cause of the next, folded by statement and by turn of a loop, the longest first.
Of what is off the chain it tells the slack, which is how much later its moves could come with the end
no later; and of the channels the least, the mean and the greatest time from one value to the next,
and the slack of their values. PRS is what `chpc compile F` writes. The status is 0, or 5 where the run
ends in a hazard."""
TURNS = 3  # turns that are told of each loop


def parser() -> Parser:
    """The words of `profile`."""
    made = Parser("profile", ABOUT)
    made.run_files()
    made.program_file()
    made.add_argument("--to", metavar="X:N", help="the chain of the N-th value on X, or of the N-th move of a node")
    made.add_argument("--from", dest="since", metavar="X:N", help="only what comes behind this value, or this move")
    made.add_argument("--most", metavar="N", type=natural, default=20, help="the most statements that are told (20)")
    made.add_argument("--json", action="store_true", help="all of it as one JSON object")
    return made


def named(scene: Scene, owner: Owner) -> str:
    """A statement or the environment for people."""
    if isinstance(owner, str):
        return owner
    return scene.called(owner) if owner is not scene.tree.root else "the root, which starts the program"


def spread(cycles: Cycles, begin: int) -> list[str]:
    """The least, the mean and the greatest time between two values since a time, with the numbers of the values."""
    gaps = [(gap, at) for at, gap in enumerate(cycles.gaps(), 1) if cycles.times[at - 1] >= begin]
    if not gaps:
        return ["-", "-", "-"]
    least, most = min(gaps), max(gaps, key=lambda it: it[0])
    mean = sum(gap for gap, _ in gaps) / len(gaps)
    return [f"{least[0]} ({least[1]} to {least[1] + 1})", f"{mean:.1f}", f"{most[0]} ({most[1]} to {most[1] + 1})"]


def shown(slack: float) -> str:
    """A slack as a cell: a dash where it has no bound, since the end doesn't wait for it."""
    return "-" if slack == UNBOUNDED else str(int(slack))


def range_of(cycles: Cycles, begin: int) -> str:
    """The least and the greatest slack of a channel's values since a time."""
    found = [slack for time, slack in zip(cycles.times, cycles.slack) if time >= begin]
    known = [slack for slack in found if slack != UNBOUNDED]
    if not known:
        return "-"
    return shown(min(known)) if min(known) == max(found) else f"{shown(min(known))}..{shown(max(known))}"


def percent(share: Share, it: Profile) -> str:
    """A share of the whole time."""
    return f"{100 * share.time / max(1, it.time()):.0f}%"


def cut(rows: list[list[str]], most: int) -> list[str]:
    """Rows as lines, below the first one at most so many; and how many more there are."""
    return joined(rows[: most + 1]) + [f".. and {len(rows) - 1 - most} more"] * (len(rows) - 1 > most)


def statements(scene: Scene, it: Profile, most: int) -> list[str]:
    """The lines of statements: those on the chain by their time, and the others by their slack."""
    on = sorted(it.owners.items(), key=lambda each: -each[1].time)
    rows = [[str(share.time), percent(share, it), str(share.moves), named(scene, owner)] for owner, share in on]
    lines = cut([["time", "share", "moves", "statement on the chain"], *rows], most)
    off = sorted((each for each in it.slack.items() if each[0] not in it.owners), key=lambda each: each[1])
    if off:
        rows = [[shown(slack), named(scene, owner)] for owner, slack in off]
        lines += ["", *cut([["slack", "statement off the chain"], *rows], most)]
    return lines


def turns(scene: Scene, it: Profile, paint: Paint) -> list[str]:
    """The lines of loops with their longest turns."""
    lines = []
    loops = sorted(it.turns.items(), key=lambda each: -sum(share.time for share in each[1].values()))
    for loop, shares in loops:
        *times, last = [shares[turn].time for turn in sorted(shares)]  # the last one may only have begun
        begun = f" and a last one of {last}" if times else ""
        times = times or [last]
        count = f"{len(times)} turn{'' if len(times) == 1 else 's'}{begun}"
        lines.append(f"{count}, {min(times)}..{max(times)}, mean {sum(times) / len(times):.1f}: {named(scene, loop)}")
        for turn, share in sorted(shares.items(), key=lambda each: -each[1].time)[:TURNS]:
            lines.append(f"  turn {turn}: {share.time}, {percent(share, it)}, from {share.begin} to {share.end}")
    return [paint.bold("turns of loops on the chain")] * bool(lines) + lines


def channels(it: Profile) -> list[str]:
    """The lines of channels."""
    rows = [["channel", "values", "least", "mean", "most", "slack"]]
    for name, cycles in it.channels.items():
        rows.append([name, str(len(cycles.times)), *spread(cycles, it.begin), range_of(cycles, it.begin)])
    return aligned(rows, len(rows[0]))


def as_json(scene: Scene, it: Profile) -> dict[str, object]:
    """The whole profile for other programs; a slack that is null has no bound."""

    def bounded(slack: float) -> int | None:
        return None if slack == UNBOUNDED else int(slack)

    found: list[object] = []
    for owner in sorted(it.slack, key=lambda each: -it.owners.get(each, Share()).time):
        share = it.owners.get(owner, Share())
        told = {"statement": named(scene, owner), "time": share.time, "moves": share.moves}
        found.append(told | {"slack": bounded(it.slack[owner])})
    loops: list[object] = [
        {"loop": named(scene, loop), "turns": [{"turn": turn, **vars(share)} for turn, share in shares.items()]}
        for loop, shares in it.turns.items()
    ]
    passed: object = {
        name: {"times": cycles.times, "slack": [bounded(slack) for slack in cycles.slack]}
        for name, cycles in it.channels.items()
    }
    made: dict[str, object] = {"begin": it.begin, "end": it.end, "moves": len(it.chain), "statements": found}
    return made | {"loops": loops, "channels": passed}


def checked(chain: list[int], wave: Wave, told: list[str]) -> None:
    """Compares the whole chain with the one that chpc tells; it is worked out here besides, for the slack."""
    own = [f"{wave.changes[move].time} {wave.changes[move].node} {wave.changes[move].value}" for move in chain]
    if own != [line.rpartition(" delay ")[0] for line in told[:-1]]:
        raise Refusal("the chain of causes as it is worked out here isn't the one that `chpc waves --causes` tells")


def head(it: Profile, wave: Wave, end: int, start: int | None) -> str:
    """What the chain is, in a sentence."""
    last = wave.changes[end]
    since = "the start" if start is None else f"time {it.begin}, move {start + 1}"
    turned = "rises" if last.value == "1" else "falls"
    count = f"{len(it.chain)} moves, each the cause of the next"
    return f"time {it.time()}: from {since} to time {it.end}, move {end + 1}, by which {last.node} {turned}: {count}"


def main(words: Sequence[str]) -> int:
    """Runs the command: 0, or 5 where the run ends in a hazard."""
    given = parser().parse_args(words)
    with Progress(f"where the time of {given.rules} goes"):
        circuit = compiled(given.rules, given.program, given.buffer)
        wave = wave_of(given.rules, given.script, given.delays, given.steps)
        if not wave.changes:
            raise Refusal("no move is made in this run", 2)
        end = (move_at(wave, circuit.net, given.to) if given.to is not None else len(wave.changes)) - 1
        start = move_at(wave, circuit.net, given.since) - 1 if given.since is not None else None
        if start is not None and start >= end:
            raise Refusal(f"--from is move {start + 1} of the run, and has to come before --to, move {end + 1}", 2)
        made = profile_of(circuit.net, circuit.tree, wave, end, start)
        checked(made.whole, wave, causes_of(given.rules, given.script, given.delays, end + 1))
    scene, notes = circuit.scene({}), circuit.notes + (cut_off(given, wave) if given.to is None else [])
    if given.json:
        put({"notes": notes, **as_json(scene, made), "hazard": wave.status == 5})
        return wave.status
    paint = Paint(sys.stdout)
    lines = [*notes, head(made, wave, end, start), "", *statements(scene, made, given.most)]
    lines += ["", *turns(scene, made, paint)] if made.turns else []
    lines += ["", *channels(made), *([ENDED] if wave.status else [])]
    print("\n".join(lines))
    return wave.status
