"""`test`: checks what test files expect of programs."""

from __future__ import annotations

import concurrent.futures
import json
import os
from collections.abc import Iterator, Sequence

from companion import options
from companion.options import Parser
from companion.program import Refusal
from companion.terminal import Progress
from companion.testcases import Case
from companion.testfile import read_cases
from companion.testruns import Checker, Result

ABOUT = """\
Checks programs by test files, each of which stands beside a program and says what is to pass on its
channels under a script. Each case is checked by rounds of the program, and by runs of its circuit:
by each order, by several seeds of the order random, and by delays, all alike and drawn from seeds;
where it is compiled with --reset, from both power-ups. The report is TAP (Test Anything Protocol);
below a case that fails stands the first difference, with the events before it.

That all cases pass proves nothing of other scripts. That a circuit which chpc compiled does what
its program does, in every order, is proved; so what a test tells is whether the program is right.
The status is 0 where all cases pass, and 1 where one fails."""
FORMS = """\
a test file in short:
  program FILE            the program; without this line the one called as the test file
  options --reset         options of compile: --reset, --buffer X
  case TITLE              begins a case; lines before the first one are those of each case
  script L: 3 15 255      a line of the script; or `script FILE`
  device fifo:A,B         a device in place of a script, as `chpx bench --device` takes it
  R = 8 32 0x1fe          what passes on a channel; `R = 8 32 ..` where more may follow
  end rest                how the run ends: rest (without this line too) or spent
  done, not done          whether the program has ended
  within 1200 moves       the most moves of each run
  within 90 time          the longest time where each move takes 1
  refused 24 at 3:14      the program is refused, for this cause, at this place
  orders all              lowest, oldest, newest, random, or all (without this line too)
  seeds 3, delays 2       how many seeds of the order random, and how many draws of delays
  steps 5000              the most moves that are made (1,000,000)
docs/DESIGN-TESTS.md tells of each line."""


def files_of(names: Sequence[str]) -> list[str]:
    """The test files that words name; of a folder all that are in it."""
    found = []
    for name in names:
        if not os.path.isdir(name):
            found.append(name)
            continue
        inside = sorted(it for it in os.listdir(name) if it.endswith(".test"))
        if not inside:
            raise Refusal(f"{name} has no file that ends in .test", 3)
        found += [os.path.normpath(os.path.join(name, it)) for it in inside]
    return found


def cases_of(names: Sequence[str]) -> list[Case]:
    """All cases of some files, whose programs are there."""
    cases = [case for name in files_of(names) for case in read_cases(name)]
    for case in cases:
        if not os.path.isfile(case.program):
            raise Refusal(f"{case.file}:{case.line}: there is no program {case.program}", 3)
    return cases


def results(cases: list[Case], checker: Checker, progress: Progress) -> Iterator[Result]:
    """What comes of the cases, in their order. Circuits are made one after the other, for the first call may build the
    program; then cases are checked side by side."""
    for case in cases:
        if not case.refused:
            checker.compile(case)
    with concurrent.futures.ThreadPoolExecutor(len(os.sched_getaffinity(0))) as pool:
        for number, result in enumerate(pool.map(checker.check, enumerate(cases)), 1):
            progress.count = f", {number} of {len(cases)} cases"
            progress.clear()
            yield result


def told(number: int, result: Result) -> list[str]:
    """A case in TAP."""
    case = result.case
    facts = [f"{result.runs} run{'s' * (result.runs != 1)}"]
    facts += [f"{result.moves} moves"] * (result.moves >= 0) + [f"time {result.time}"] * (result.time >= 0)
    head = f"ok {number} - {case.file}: {case.title} ({', '.join(facts)})"
    lines = [f"# {line}" for line in result.why or notes(case)]
    return [f"not {head}" if result.why else head, *lines]


def notes(case: Case) -> list[str]:
    """What a case that passes doesn't say, in a line."""
    says = case.wanted or case.refused or case.done is not None or case.moves is not None or case.time is not None
    return [] if says else ["no line says what has to pass: only the end was looked at"]


def as_json(result: Result) -> dict[str, object]:
    """A case for programs."""
    case = result.case
    facts = {"runs": result.runs, "moves": result.moves, "time": result.time}
    return {"file": case.file, "line": case.line, "title": case.title, "ok": not result.why, **facts, "why": result.why}


def main(words: Sequence[str]) -> int:
    """Runs the command: 0 where all cases pass, else 1."""
    made = Parser("test", ABOUT, FORMS)
    made.add_argument("files", metavar="FILE", nargs="+", help="a test file, or a folder: all of its files *.test")
    made.add_argument("--json", action="store_true", help="one JSON object in place of TAP")
    made.add_argument("--keep", metavar="FOLDER", help="a folder in which the rule files and scripts are kept")
    given = made.parse_args(words)
    cases = cases_of(given.files)
    found = []
    checker = Checker(given.keep or options.room(), bool(given.keep))
    with Progress("test") as progress:
        if not given.json:
            print(f"TAP version 13\n1..{len(cases)}", flush=True)
        for number, result in enumerate(results(cases, checker, progress), 1):
            found.append(result)
            if not given.json:
                print("\n".join(told(number, result)), flush=True)
    failed = [it for it in found if it.why]
    if given.json:
        print(json.dumps({"ok": not failed, "cases": [as_json(it) for it in found]}, indent=1))
    elif failed:
        print(f"# {len(failed)} of {len(found)} cases failed")
    return 1 if failed else 0
