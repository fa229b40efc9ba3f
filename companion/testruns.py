"""How a case of a test file is checked: by rounds of the program, and by runs of its circuit in many orders."""

from __future__ import annotations

import io
import os
from collections.abc import Iterator
from dataclasses import dataclass, field

from companion import causes, options, program
from companion.drive import driven_script
from companion.explain import LINE_FAULT, explained
from companion.hunt import moving
from companion.program import Answer
from companion.rules import net_in
from companion.terminal import Paint
from companion.testcases import Case
from companion.testfaults import Outcome, events_before, fault_of, outcome_of
from companion.tries import mixtures

ROUNDS = (1_000, 10_000, 100_000, 1_000_000)


@dataclass
class Result:
    """What came of a case: why it failed, in lines, none where it is good; how many runs were made; the moves of the
    first one of the circuit, and its time where each move takes 1 (-1 where there was none)."""

    case: Case
    why: list[str] = field(default_factory=list)
    runs: int = 0
    moves: int = -1
    time: int = -1


class Failed(Exception):
    """A case fails; the lines say why."""

    def __init__(self, *lines: str) -> None:
        super().__init__(lines[0])
        self.lines = list(lines)


class Checker:
    """Checks cases. `folder` is for rule files, scripts and delay files."""

    def __init__(self, folder: str, keep: bool = False) -> None:
        self.folder, self.keep = folder, keep
        os.makedirs(folder, exist_ok=True)
        self.paint = Paint(io.StringIO())  # no terminal, so no colours
        self.circuits: dict[tuple[str, tuple[str, ...]], tuple[str, Answer]] = {}

    def compile(self, case: Case) -> tuple[str, Answer]:
        """The rule file of a case, which is made once for all that have it, and what was answered."""
        key = (case.program, case.options)
        if key not in self.circuits:
            name = os.path.join(self.folder, f"{len(self.circuits)}-{options.stem(case.program)}.prs")
            answer = program.answer(["compile", case.program, *case.options])
            options.write(name, answer.out)
            self.circuits[key] = (name, answer)
        return self.circuits[key]

    def refusal(self, case: Case, words: list[str], answer: Answer) -> Failed:
        """What is said of a call that was refused; of a line of the script by the line of the test file."""
        told = LINE_FAULT.match(answer.said())
        if told and told[1].startswith("5") and not case.device:
            line = list(case.script.values())[int(told[3]) - 1][1]
            cause = causes.causes().get(int(told[1]))
            when = f": {'; or '.join(cause.when)}" if cause else ""
            return Failed(f"{case.file}:{line}: {told[1]} {told[2]}{when}")
        return Failed(f"chpc {words[0]} of {case.program}: {answer.said()}", *explained(words, answer, self.paint))

    def check(self, numbered: tuple[int, Case]) -> Result:
        """Checks a case."""
        number, case = numbered
        result = Result(case)
        try:
            if case.refused:
                result.runs = 1
                self.check_refused(case)
            else:
                self.check_runs(case, os.path.join(self.folder, f"{number + 1}"), result)
        except Failed as failed:
            result.why = failed.lines + self.kept(number, case)
        except program.Refusal as refusal:
            result.why = refusal.text.split("\n")
        except program.Ended as ended:
            result.why = [ended.answer.said(), *explained(ended.words, ended.answer, self.paint)]
        return result

    def kept(self, number: int, case: Case) -> list[str]:
        """Where the files of a case are, in a folder that is kept."""
        rules = self.circuits[case.program, case.options][0] if not case.refused else ""
        names = [rules, os.path.join(self.folder, f"{number + 1}.script")]
        return [f"its files are {' and '.join(names)}"] if self.keep and all(map(os.path.exists, names)) else []

    def check_refused(self, case: Case) -> None:
        """Whether the program is refused as it is wanted."""
        words = ["check", case.program]
        answer = program.answer(words)
        number, place = case.refused or (0, "")
        lines = explained(words, answer, self.paint)
        if answer.status == 0:
            raise Failed(f"{case.file}:{case.place('refused')}: {case.program} is accepted, wanted `refused {number}`")
        is_there = not place or any(f":{place}: " in line for line in lines)
        if not answer.said().startswith(f"chp: {number} ") or not is_there:
            wanted = f"{number} at {place}" if place else f"{number}"
            why = f"{case.file}:{case.place('refused')}: refused otherwise, wanted `refused {wanted}`"
            raise Failed(why, answer.said(), *lines)

    def check_runs(self, case: Case, name: str, result: Result) -> None:
        """Whether all runs are as they are wanted, and pass the same."""
        rules, answer = self.compile(case)
        if answer.status:
            raise self.refusal(case, ["compile", case.program, *case.options], answer)
        script = f"{name}.script"
        text = driven_script(rules, case.device, os.path.dirname(case.file)) if case.device else case.script_text()
        options.write(script, text)
        first = self.rounds(case, script)
        result.runs += 1
        self.judge(case, first, "chpc run", rules, script)
        for what, words in self.tries(case, rules, name):
            came = outcome_of(self.called(case, ["simulate", rules, script, *words, "--steps", str(case.steps)]))
            result.runs += 1
            is_unit = what.startswith("delays")
            result.moves = came.moves if result.moves < 0 else result.moves
            result.time = came.time if is_unit and result.time < 0 else result.time
            self.judge(case, came, what, rules, script, is_unit)
            if came.end == first.end == "rest" and came.passed != first.passed:
                other = next(it for it in came.passed if came.passed[it] != first.passed.get(it))
                raise Failed(f"{other}: by {what} other values pass than by chpc run")

    def called(self, case: Case, words: list[str]) -> str:
        """The report of a run, also of one that ends in a hazard."""
        answer = program.answer(words)
        if answer.status not in (0, 5):
            raise self.refusal(case, words, answer)
        return answer.text()

    def rounds(self, case: Case, script: str) -> Outcome:
        """The rounds of the program: as many as it takes to rest."""
        buffer = [it for it in case.options if it != "--reset"]
        for number in ROUNDS:
            came = outcome_of(self.called(case, ["run", case.program, script, "--rounds", str(number), *buffer]))
            if came.end == "rest" or case.end == "spent":
                break
        return came

    def tries(self, case: Case, rules: str, name: str) -> Iterator[tuple[str, list[str]]]:
        """The runs of the circuit: what each is, and its words."""
        net = net_in(rules)
        powers = [["--power", it] for it in ("low", "high")] if net.version == "prs 2" else [[]]
        for power in powers:
            at = f" from power-up {power[1]}" if power else ""
            for order in case.orders:
                for seed in range(1, case.seeds + 1) if order == "random" else (0,):
                    more = ["--seed", str(seed)] if seed else []
                    yield f"the order {' '.join([order, *more])}{at}", ["--order", order, *more, *power]
            options.write(f"{name}.delays", "")
            yield f"delays of 1{at}", ["--delays", f"{name}.delays", *power]
            for it in mixtures(moving(net), case.delays):
                options.write(f"{name}.delays", it.delays or "")
                yield f"{it.what}{at}", ["--delays", f"{name}.delays", *power]

    def judge(self, case: Case, came: Outcome, what: str, rules: str, script: str, is_unit: bool = False) -> None:
        """Fails the case where an outcome isn't the wanted one."""
        fault = fault_of(case, came, is_unit)
        if fault is None:
            return
        lines = [f"{case.file}:{fault.line}: {fault.why} (by {what})"]
        if not fault.is_late and came.end in ("rest", "spent"):
            lines += events_before(fault, rules, script, case.steps if came.moves >= 0 else None)
        raise Failed(*lines)
