"""`pace`: how long n rounds of a program take its circuit at most, beside the time that rounds of a run took."""

from __future__ import annotations

import os
import re
import subprocess
import sys
from collections.abc import Iterator, Sequence

from companion import options, program
from companion.options import Parser, natural
from companion.places import Text
from companion.program import Answer, Ended, Refusal
from companion.terminal import Progress
from companion.until import MOST_MOVES
from companion.waves import Wave, wave_of

ABOUT = """\
Prints what the proved program chp_pace says of a program: `round`, a number that no way of moves from
the steps of one round to those of the next exceeds where each call has a copy of its procedure's body,
and `bound`, so many moves, one behind the other, for each of n rounds of the circuit that `compile`
writes without --buffer; between which statements' steps the longest of these ways lies (`from`, `to`), and
the longest way within each loop (`loop`), with the line and the column of the first name in each of these.
With a script also `rounds`, how many rounds are made under it until no step is
left, 1,000 at most, and `sum`, so many moves, one behind the other, until that circuit has passed what
these pass. Then it runs the circuit, each move taking 1, and prints for the first rounds that pass
something new by when the circuit had passed all that so many rounds pass (`-` where the run was too
short), and the bound of so many. The status is that of chp_pace."""
VARIABLE = "CHP_PACE"  # names another program


def parser() -> Parser:
    """The words of `pace`."""
    made = Parser("pace", ABOUT)
    made.add_argument("source", metavar="F", help="the program")
    made.add_argument("script", metavar="SCRIPT", nargs="?", help="what the environment sends and takes")
    made.add_argument("--rounds", metavar="N", type=natural, default=16, help="the first N rounds of the run (16)")
    return made


def path() -> str:
    """chp_pace: that which the variable CHP_PACE names, or the one that ./chpc builds beside itself."""
    return os.environ.get(VARIABLE) or os.path.join(program.TOP, "crates", "chp_pace", "out", "chp_pace")


def told(source: str, script: str | None) -> tuple[str, int]:
    """What chp_pace prints of a program and maybe of a script, and the bound in it. chpc is asked first, since it
    builds chp_pace too. A script is refused as by `run`."""
    program.wanted(["check", source])
    if not (os.path.isfile(path()) and os.access(path(), os.X_OK)):
        raise Refusal(f"{path()} isn't there: ./chpc builds it, and {VARIABLE} may name a built one elsewhere", 127)
    words = [source, script] if script else [source]
    with program.started(words, subprocess.PIPE, subprocess.PIPE, path(), VARIABLE) as run:
        out, err = run.communicate()
    answer = Answer(program.shell_status(run.returncode), out, err)
    if answer.status:
        raise Ended(["run", *words] if script else words, answer)
    return answer.text(), int(re.findall(r"^bound (\d+)$", answer.text(), re.MULTILINE)[0])


def placed(text: str, source: str) -> str:
    """The lines with places as FILE:LINE:COLUMN."""
    file = Text(source, options.read(source))
    return re.sub(r"(?<= at )(\d+)\.\.\d+$", lambda at: file.told(int(at[1])), text, flags=re.MULTILINE)


def passed(source: str, script: str, rounds: int) -> dict[str, int]:
    """How many values the program passes on each channel in so many rounds."""
    lines = program.wanted(["run", source, script, "--rounds", str(rounds)]).text().splitlines()
    return {line.partition(":")[0]: len(line.split()) - 1 for line in lines if ":" in line}


def new_rounds(source: str, script: str, most: int) -> Iterator[tuple[int, dict[str, int]]]:
    """The first rounds that pass something new, each with what so many rounds pass."""
    before: dict[str, int] = {}
    for rounds in range(1, most + 1):
        counts = passed(source, script, rounds)
        if counts != before and any(counts.values()):
            yield rounds, counts
        before = counts


def time_of(wave: Wave, counts: dict[str, int]) -> int | None:
    """By when as many values had passed on each channel; nothing where the run is too short for that."""
    last = 0
    for name, count in counts.items():
        times = [it.time for it in wave.changes if it.node == f"{name}.a" and it.value == "1"]
        if len(times) < count:
            return None
        last = max(last, times[count - 1] if count else 0)
    return last


def measured(source: str, script: str, most: int, bound: int) -> Iterator[str]:
    """A line for each of these rounds."""
    rules = f"{options.room()}/pace.prs"
    options.write(rules, program.wanted(["compile", source]).out)
    wave = wave_of(rules, script, steps=MOST_MOVES)
    yield f"{'rounds':>8}{'time':>8}{'bound':>8}"
    for rounds, counts in new_rounds(source, script, most):
        time = time_of(wave, counts)
        yield f"{rounds:8}{'-' if time is None else time:>8}{rounds * bound:8}"


def main(words: Sequence[str]) -> int:
    """0, where chp_pace ends so."""
    given = parser().parse_args(list(words))
    with Progress("pace") as progress:
        text, bound = told(given.source, given.script)
        lines = list(measured(given.source, given.script, given.rounds, bound)) if given.script else []
        progress.clear()
    sys.stdout.write(placed(text, given.source) + "".join(f"{line}\n" for line in lines))
    return 0
