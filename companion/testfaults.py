"""What differs from what a test wants: the first difference, with the events before it."""

from __future__ import annotations

from dataclasses import dataclass

from companion.passed import events_of
from companion.rules import net_in
from companion.testcases import Case, Values
from companion.waves import wave_of

SHOWN = 8  # events that are told before a difference


@dataclass(frozen=True)
class Outcome:
    """How a run ended: its end, whether the program has ended, moves and time (-1 where none is told), and what has
    passed on each channel."""

    end: str
    done: bool
    moves: int
    time: int
    passed: dict[str, list[int]]


@dataclass(frozen=True)
class Fault:
    """A difference: in a sentence, with the line of the test file; where it is one of a channel, the channel and which
    of its values differs, from 0; and whether what passed before tells something of it."""

    why: str
    line: int
    channel: str = ""
    place: int = -1
    is_late: bool = False


def outcome_of(text: str) -> Outcome:
    """Reads the report of a run or of rounds."""
    lines = [line.split() for line in text.splitlines() if line]
    told = {words[0]: words[1:] for words in lines}
    passed = {words[0][:-1]: [int(word) for word in words[1:]] for words in lines if words[0].endswith(":")}
    moves, time = (int(told[word][0]) if word in told else -1 for word in ("moves", "time"))
    return Outcome(" ".join(told["end"]), told["done"] == ["1"], moves, time, passed)


def values_fault(name: str, wanted: Values, came: list[int]) -> Fault | None:
    """The first value on a channel that isn't the wanted one."""
    numbers = wanted.numbers()
    for at, (value, number) in enumerate(zip(came, numbers)):
        if value != number:
            why = f"{name}: value {at + 1} is {wanted.shown(value)}, wanted {wanted.shown(number)}"
            return Fault(why, wanted.line, name, at)
    at = len(came)
    if at < len(numbers):
        return Fault(f"{name}: value {at + 1} doesn't come, wanted {wanted.shown(numbers[at])}", wanted.line, name, at)
    if at > len(numbers) and not wanted.is_open:
        at = len(numbers)
        why = f"{name}: value {at + 1} is {wanted.shown(came[at])}, and no more than {at} are wanted"
        return Fault(why, wanted.line, name, at)
    return None


def fault_of(case: Case, came: Outcome, is_unit: bool = False) -> Fault | None:
    """The first thing that isn't as the case wants it. `is_unit` is whether each move took 1, as `within N time`
    means it."""
    for name, wanted in case.wanted.items():
        if name not in came.passed:
            return Fault(f"there is no channel {name}", wanted.line)
        found = values_fault(name, wanted, came.passed[name])
        if found:
            return found
    if came.end != case.end:
        return Fault(f"the run ends with `{came.end}`, wanted `{case.end}`", case.place("end"))
    if case.done is not None and came.done != case.done:
        state = "has ended" if came.done else "hasn't ended"
        return Fault(f"the program {state}, wanted `{'done' if case.done else 'not done'}`", case.place("done"))
    if case.moves is not None and came.moves > case.moves:
        return Fault(f"the run takes {came.moves} moves, more than {case.moves}", case.place("moves"), is_late=True)
    if case.time is not None and is_unit and came.time > case.time:
        why = f"the run takes {came.time} where each move takes 1, more than {case.time}"
        return Fault(why, case.place("time"), is_late=True)
    return None


def events_before(fault: Fault, rules: str, script: str, steps: int | None) -> list[str]:
    """What passed before a difference, in lines: the last events of the timed run in which each move takes 1, of at
    most so many moves as the run had in which it was found; none are told where that was one of rounds."""
    events = list(events_of(wave_of(rules, script, None, steps), net_in(rules).channels))
    ends = [at for at, it in enumerate(events) if (it.channel, it.place) == (fault.channel, fault.place)]
    end = ends[0] + 1 if ends else len(events)
    head = "the events up to it" if ends else "the last events"
    shown = events[max(0, end - SHOWN) : end]
    if not shown:
        return ["nothing passed"]
    more = [f"  .. {end - len(shown)} before"] if end > len(shown) else []
    lines = [f"  {it.time} {it.channel} {it.value()}" for it in shown]
    return [f"{head}, by time where each move takes 1:", *more, *lines]
