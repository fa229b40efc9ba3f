"""`why`: what is under way where a run stops."""

from __future__ import annotations

import sys
from collections.abc import Sequence

from companion import options, program
from companion.as_json import put
from companion.compiled import compiled
from companion.options import Parser
from companion.parts import width_of
from companion.scene import Scene
from companion.terminal import Paint, Progress
from companion.until import add_until, steps_of
from companion.waits import Wait, cycles, waits_of
from companion.waves import Report, read_report, run_words, wave_of

ABOUT = """\
What is under way where a run of a program's circuit stops: the statements that have been asked and
haven't answered, their places in the source, what each waits for, and the variables' values; for a
deadlock also who waits for whom. The run is the timed one of `chpc waves` and `chpc simulate
--delays`. PRS is what `chpc compile F` writes. The status is 0, also for a deadlock, or 5 where the
run ends in a hazard."""


def parser() -> Parser:
    """The words of `why`."""
    made = Parser("why", ABOUT)
    made.run_files()
    made.program_file()
    add_until(made)
    made.add_argument("--all", action="store_true", help="also tell the statements that the waiting ones lie in")
    made.add_argument("--hex", action="store_true", help="values in hexadecimal")
    made.add_argument("--json", action="store_true", help="the same as one JSON object")
    return made


def ending(report: Report, until: str | None = None) -> str:
    """How the run ended, in a sentence; or that it was ended where a value passed."""
    after = f"after {report.moves} moves, at time {report.time}"
    if until is not None and report.end == ["spent"]:
        name, _, number = until.partition(":")
        return f"the run is stopped {after}, by which value {number} passes on {name}"
    if report.end == ["rest"]:
        state = "and the program has ended" if report.done else "and the program hasn't ended"
        return f"the run comes to rest {after}: no move is enabled, {state}"
    if report.end == ["spent"]:
        return f"the run was cut off {after}, and isn't at rest: a greater --steps lets it go on"
    return f"the run ends in a hazard {after}: end {' '.join(report.end)}"


def told(scene: Scene, waits: list[Wait], paint: Paint, with_all: bool) -> list[str]:
    """What is under way, in lines."""
    lines = [paint.bold("under way")] if waits else []
    for wait in waits:
        path = scene.path(wait.part)
        lines.append(f"  {scene.called_on(path)}")
        lines += [f"      {line}" for line in wait.lines]
        above = path[1:-1] if with_all else []
        lines += [f"      in {scene.called(part)}" for part in reversed(above)]
    names = scene.tree.variables()
    if names:
        lines.append(paint.bold("variables"))
        lines += [f"  {it.name} = {scene.value(it.name, width_of(it))}" for it in names]
    return lines


def conclusion(scene: Scene, waits: list[Wait], paint: Paint) -> list[str]:
    """What it comes down to."""
    found = []
    is_still = scene.is_still()
    for cycle in cycles(waits) if is_still else ():
        whom = "it waits for itself" if len(
            cycle
        ) == 1 else "each of these waits for the next one, the last one for the first"
        found.append(f"{paint.red('a deadlock')}: {whom}")
        found += [f"  {scene.called(part)}" for part in cycle]
    for wait in waits:
        if wait.blocked:
            found.append(paint.red("blocked for good") + f": {scene.called(wait.part)}")
    if not found and waits and is_still:
        if any(wait.outside for wait in waits):
            found += [f"{paint.red('blocked for good')}: {scene.called(wait.part)}" for wait in waits if wait.over]
            rest = "the rest would" if found else "no deadlock: it would"
            found.append(f"{rest} go on if the environment did, by the script")
        else:
            found.append("blocked for good: what they wait for has ended")
    return found


def as_json(scene: Scene, waits: list[Wait], notes: list[str]) -> dict[str, object]:
    """All of it for other programs."""
    report = scene.report
    under_way: list[object] = []
    for wait in waits:
        path = scene.path(wait.part)
        told = {"statement": scene.called_on(path), "in": [scene.called(part) for part in path[1:-1]]}
        told |= {"why": wait.lines, "waits_for": [scene.called(part) for part in wait.on]}
        under_way.append(told | {"environment": wait.outside, "blocked": wait.blocked})
    values = {it.name: scene.number(it.name, width_of(it)) for it in scene.tree.variables()}
    found = [[scene.called(part) for part in cycle] for cycle in cycles(waits)] if scene.is_still() else []
    ended: dict[str, object] = {"end": " ".join(report.end), "moves": report.moves, "time": report.time}
    ended |= {"done": report.done, "passed": report.passed, "notes": notes}
    return ended | {"under_way": under_way, "variables": values, "deadlocks": found}


def main(words: Sequence[str]) -> int:
    """Runs the command: 0, or 5 where the run ends in a hazard."""
    given = parser().parse_args(words)
    with Progress(f"the run of {given.rules}"):
        circuit = compiled(given.rules, given.program, given.buffer)
        steps, delays = steps_of(given, circuit.net), given.delays
        if delays is None:
            delays = f"{options.room()}/delays"
            options.write(delays, "")
        words = ["simulate", *run_words(given.rules, given.script, delays, steps)]
        answer = program.wanted(words, (0, 5))
        report = read_report(answer.text())
        wave = wave_of(given.rules, given.script, given.delays, steps)
    scene = circuit.scene(wave.last(), report, given.hex)
    waits = waits_of(scene)
    if given.json:
        put(as_json(scene, waits, circuit.notes))
        return answer.status
    paint = Paint(sys.stdout)
    head = [*circuit.notes, ending(report, given.until)]
    print("\n".join([*head, *told(scene, waits, paint, given.all), *conclusion(scene, waits, paint)]))
    return answer.status
