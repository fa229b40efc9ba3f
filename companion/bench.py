"""`bench --device`: runs of a circuit against a device in Python. `bench --peer` is a command of chpc."""

from __future__ import annotations

from collections.abc import Sequence

from companion import options
from companion.drive import Drive, device_words, drive_of
from companion.options import Parser, natural
from companion.program import Refusal
from companion.terminal import Progress
from companion.until import MOST_MOVES
from companion.waves import read_report

ABOUT = f"""\
Runs a circuit against a device that is a class in Python: it takes what comes on `out` channels and
decides by it what it sends on `in` channels. chpc makes a run under what the device has sent so far,
the device hears what passed, what it answers comes to the script, and so on until it has nothing
new, or a run is cut off. The script is kept; it makes the same run again, by whatever command.

Devices: source, sink, echo, fifo, memory, or the last class of FILE.py. Behind a colon stand its
channels, as in memory:Q,R,W; without them it has all that no other device has. What no device has
is taken as it comes. docs/DEVICES.md tells of each, and how a class is written.

Output is the report of `chpc simulate` under the script, and three lines on how it came about. The
status is 0, or 5 where the run ends in a hazard. A run has at most {MOST_MOVES} moves."""
ORDERS = (("--order", "oldest"), ("--order", "newest"), ("--order", "random", "--seed", "1"))


def is_asked(words: Sequence[str]) -> bool:
    """Whether words ask for a bench with a device in Python."""
    return words[:1] == ["bench"] and any(word.split("=")[0] == "--device" for word in words)


def parser() -> Parser:
    """The words of `bench --device`."""
    made = Parser("bench", ABOUT)
    made.add_argument("rules", metavar="PRS", help="the rule file")
    made.add_argument(
        "--device", metavar="NAME", action="append", required=True, help="a device; for several, several times"
    )
    device_words(made)
    made.add_argument("--steps", metavar="N", type=natural, default=MOST_MOVES, help="the most moves of a run")
    made.add_argument("--keep-script", metavar="FILE", help="the script that comes of it (PRS-device.script)")
    return made


def confirmed(drive: Drive, passed: dict[str, list[int]]) -> str:
    """Whether the script passes the same by other orders, in a line."""
    for order in ORDERS:
        report = read_report(drive.run(*order).text())
        if report.end != ["rest"] or report.passed != passed:
            return f"by {' '.join(order)} other values pass: the circuit isn't one that chpc compiled"
    return "the orders oldest, newest and random pass the same"


def main(words: Sequence[str]) -> int:
    """Runs the command."""
    given = parser().parse_args(words)
    if given.steps > MOST_MOVES:
        raise Refusal(f"--steps is at most {MOST_MOVES}", 2)
    name = given.keep_script or f"{options.stem(given.rules)}-device.script"
    with Progress(f"bench of {given.rules}") as progress:
        drive = drive_of(given.rules, given.device, given.image, given.steps)
        answer = drive.drive(progress)
        report = read_report(answer.text())
        told = confirmed(drive, report.passed) if report.end == ["rest"] else ""
    options.write(name, drive.text())
    sent = sum(len(report.passed[it]) for it in drive.sent)
    heard = sum(len(report.passed[it]) for it in drive.heard)
    print(answer.text(), end="")
    print(f"the devices sent {sent} values and took {heard}, in {drive.runs} run{'s' * (drive.runs != 1)}")
    if told:
        print(told)
    print(f"the script is {name}: chpx simulate {given.rules} {name} makes this run again")
    return answer.status
