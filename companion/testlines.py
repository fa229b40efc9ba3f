"""The lines of a test file, each form by a function that sets what it says in a case."""

from __future__ import annotations

import os
import re
import sys
from collections.abc import Callable

from companion import options
from companion.chp_tokens import number_of
from companion.places import Text
from companion.program import Refusal
from companion.terminal import Paint
from companion.testcases import ORDERS, Case, Values
from companion.until import MOST_MOVES

WORD = re.compile(r"[^ \t\r]+")


class Words:
    """The words of a line, with a fault where one of them is wrong."""

    def __init__(self, text: Text, number: int) -> None:
        self.text, self.number = text, number
        self.line = text.line(number).decode("latin-1")
        self.spans = [it.span() for it in WORD.finditer(self.line.split("//", 1)[0])]
        self.all = [self.line[start:end] for start, end in self.spans]

    def fault(self, at: int, why: str) -> Refusal:
        """The refusal of a line: at its word of this number, or behind its last one."""
        start, end = self.spans[at] if at < len(self.spans) else (self.spans[-1][1], self.spans[-1][1] + 1)
        first = self.text.starts[self.number - 1]
        shown = self.text.shown(first + start, first + end, Paint(sys.stderr))
        return Refusal("\n".join([f"{self.text.told(first + start)}: {why}", *shown]), 8)

    def rest(self, least: int = 1) -> list[str]:
        """The words behind the first one."""
        if len(self.all) <= least:
            raise self.fault(len(self.all), f"`{self.all[0]}` wants more words behind it")
        return self.all[1:]

    def number_at(self, at: int, most: int = 2**64 - 1) -> int:
        """The number that a word is."""
        found = number_of(self.all[at]) if at < len(self.all) else None
        if found is None or found > most:
            raise self.fault(at, f"a number from 0 to {most} is wanted here")
        return found

    def only(self, count: int) -> None:
        """Refuses a line of more words than so many."""
        if len(self.all) > count:
            raise self.fault(count, "one word too many")


def put_script(case: Case, words: Words, own: set[str]) -> None:
    """`script NAME: WORD ..`, a line of the script, or `script FILE`, all lines of that file."""
    rest = words.rest()
    if not rest[0].endswith(":"):
        if len(rest) > 1:
            line = f"`script {rest[0].rstrip('=')}: ..`"
            raise words.fault(1, f"{line} is a line of the script, and `script FILE` all lines of a file")
        name = os.path.join(os.path.dirname(case.file), rest[0])
        for line in options.read(name).decode("latin-1").split("\n"):
            told = " ".join(WORD.findall(line.split("//", 1)[0]))
            if told:
                case.script[told.split(":")[0]] = (told, words.number)
        return
    if f"script {rest[0]}" in own:
        raise words.fault(1, f"the script has its line for {rest[0][:-1]}")
    own.add(f"script {rest[0]}")
    case.script[rest[0][:-1]] = (" ".join(rest), words.number)


def put_values(case: Case, words: Words, own: set[str]) -> None:
    """`NAME = VALUE ..`, what passes on a channel."""
    name, values = words.all[0], words.all[2:]
    if f"= {name}" in own:
        raise words.fault(0, f"what passes on {name} is told above")
    own.add(f"= {name}")
    is_open = values[-1:] == [".."]
    for at, word in enumerate(values[:-1] if is_open else values, 2):
        if number_of(word) is None:
            raise words.fault(at, "a number is wanted here, or `..` at the end, where more may follow")
    case.wanted[name] = Values(tuple(values[:-1] if is_open else values), is_open, words.number)


def put_refused(case: Case, words: Words, own: set[str]) -> None:
    """`refused NUMBER` or `refused NUMBER at LINE:COLUMN`."""
    number = words.number_at(1, 99)
    if len(words.all) > 2 and (words.all[2] != "at" or not re.fullmatch(r"\d+:\d+", "".join(words.all[3:4]))):
        raise words.fault(2, "`at LINE:COLUMN` is wanted here")
    words.only(4)
    case.refused = (number, "".join(words.all[3:4]))
    case.places["refused"] = words.number


def put_end(case: Case, words: Words, own: set[str]) -> None:
    """`end rest` or `end spent`."""
    words.only(2)
    if words.rest()[0] not in ("rest", "spent"):
        raise words.fault(1, "`rest` or `spent` is wanted here; a hazard is always a failure")
    case.end = words.all[1]
    case.places["end"] = words.number


def put_done(case: Case, words: Words, own: set[str]) -> None:
    """`done` or `not done`, whether the program has ended."""
    is_not = words.all[0] == "not"
    if is_not and words.rest()[0] != "done":
        raise words.fault(1, "`done` is wanted here")
    words.only(1 + is_not)
    case.done = not is_not
    case.places["done"] = words.number


def put_within(case: Case, words: Words, own: set[str]) -> None:
    """`within N moves` or `within N time`."""
    number, unit = words.number_at(1), "".join(words.all[2:3])
    if unit not in ("moves", "time"):
        raise words.fault(2, "`moves` or `time` is wanted here")
    words.only(3)
    setattr(case, unit, number)
    case.places[unit] = words.number


def put_orders(case: Case, words: Words, own: set[str]) -> None:
    """`orders all`, or the names of some."""
    names = words.rest()
    for at, name in enumerate(names, 1):
        if name not in ORDERS and names != ["all"]:
            raise words.fault(at, f"an order is wanted here: {', '.join(ORDERS)}, or `all` alone")
    case.orders = ORDERS if names == ["all"] else tuple(names)


def put_count(case: Case, words: Words, own: set[str]) -> None:
    """`seeds N`, `delays N` or `steps N`."""
    setattr(case, words.all[0], words.number_at(1, MOST_MOVES if words.all[0] == "steps" else 1000))
    words.only(2)


def put_program(case: Case, words: Words, own: set[str]) -> None:
    """`program FILE`."""
    case.program = os.path.join(os.path.dirname(case.file), words.rest()[0])
    words.only(2)


def put_words(case: Case, words: Words, own: set[str]) -> None:
    """`options WORD ..`, those of `compile`, or `device WORD ..`, those of `bench` that tell a device."""
    setattr(case, words.all[0], tuple(words.rest()))


Put = Callable[[Case, Words, set[str]], None]
FORMS: dict[str, Put] = {
    "program": put_program,
    "options": put_words,
    "device": put_words,
    "script": put_script,
    "refused": put_refused,
    "end": put_end,
    "done": put_done,
    "not": put_done,
    "within": put_within,
    "orders": put_orders,
    "seeds": put_count,
    "delays": put_count,
    "steps": put_count,
}
