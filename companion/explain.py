"""What stands below the fixed line of chpc: places with carets, a sentence on the cause, and what to do instead."""

from __future__ import annotations

import re
import shlex
from collections.abc import Sequence

from companion import causes, expected, filekinds, hints, linefaults, textfaults
from companion.commands import take
from companion.forms import DELAYS, PROGRAM, RULES, SCRIPT, WAVE, forms, told_forms
from companion.labels import STANDARD_INPUT, called
from companion.places import Text
from companion.program import Answer
from companion.terminal import Paint

TEXT_FAULT = re.compile(r"chp: (\d+) (\w+) at (\d+)\.\.(\d+)(?: and (\d+)\.\.(\d+))?$")
LINE_FAULT = re.compile(r"chp: 8 (\d+) (\w+) at line (\d+)$")
# which file a cause of status 8 speaks of, by the tens of its number
ROLES_OF_TENS = {4: RULES, 5: SCRIPT, 6: DELAYS, 7: WAVE}


class Explainer:
    """Explains one answer of the program."""

    def __init__(self, words: Sequence[str], answer: Answer, paint: Paint) -> None:
        self.taken = take(words)
        if not forms():
            self.taken.files = filekinds.looked_at(words[1:])
        self.words = words
        self.answer = answer
        self.paint = paint
        self.lines: list[str] = []

    def say(self, text: str) -> None:
        """A line of the explanation."""
        self.lines.append(text)

    def text_of(self, *roles: str) -> Text | None:
        """The first file with some role that can be read."""
        for name in self.taken.named(*roles):
            try:
                with open(name, "rb") as file:
                    return Text(name, file.read())
            except OSError:
                continue
        return None

    def cause(self, number: int, hint: str = "", has_more: bool = False) -> None:
        """What to do about a cause of refusal: the hint, or else what the page says, where nothing more was said."""
        cause = causes.causes().get(number)
        if cause is None:
            if not causes.causes():
                if hint:
                    self.say(f"write instead: {hint}")
                self.say(causes.NO_PAGES)
            return
        if hint:
            self.say(f"write instead: {hint}")
        elif cause.instead and not has_more:
            self.say("a way out: " + "; or ".join(cause.instead))
        self.say(self.paint.dim(f"(more on {number} {cause.name}: {cause.page})"))

    def named(self, number: int, name: str, what: str = "") -> str:
        """A cause's name with what is known of the place, or else with when it comes."""
        cause = causes.causes().get(number)
        told = what or ("; or ".join(cause.when) if cause else "")
        return self.paint.red(name) + (f": {told}" if told else "")

    def refused_text(self, told: re.Match[str]) -> None:
        """A program text is refused: one place or two."""
        number, name = int(told[1]), told[2]
        text = self.text_of(PROGRAM)
        spans = [(int(told[3]), int(told[4]))] + ([(int(told[5]), int(told[6]))] if told[5] else [])
        if text is None:
            self.say(self.named(number, name))
            self.cause(number)
            return
        if self.taken_for(text, PROGRAM):
            return
        found = textfaults.of(text.data, number, *spans[0])
        for at, (start, end) in enumerate(spans):
            what = "and here" if at else self.named(number, name, found.what)
            self.say(f"{self.paint.bold(text.told(start))}: {what}")
            self.lines += text.shown(start, end, self.paint)
        if found.wanted:
            self.say(f"expected here: {expected.joined(found.wanted)}")
        for start, end in found.opened:
            self.say(f"{self.paint.bold(text.told(start))}: this bracket is still open there")
            self.lines += text.shown(start, end, self.paint)
        self.cause(number, hints.hint(text.data, number, *spans[0]) or found.instead, has_more=bool(found.wanted))

    def taken_for(self, text: Text, role: str) -> bool:
        """Whether a file looks like another kind of file than the one that is wanted; if so that is said."""
        other = filekinds.other_than(text.data, role)
        if not text.data.strip():
            self.say(f"{self.paint.bold(text.name)}: this file is empty, and a {role} is wanted here")
            return True
        if other:
            self.say(f"{self.paint.bold(text.name)}: this looks like a {other}, and a {role} is wanted here")
            ways = filekinds.WAYS.get((other, role))
            if ways:
                self.say(f"what to do: {ways}")
        return bool(other)

    def refused_line(self, told: re.Match[str]) -> None:
        """A line of another file is refused."""
        number, name, line = int(told[1]), told[2], int(told[3])
        role = ROLES_OF_TENS.get(number // 10, RULES)
        text = self.text_of(role)
        hint = ""
        if text is None:
            self.say(f"{role}, line {line}: {self.named(number, name)}")
        elif self.taken_for(text, role):
            return
        else:
            hint = linefaults.hint(text.line(line), number, self.text_of(RULES))
            data = text.line(line)
            start, end = linefaults.stretch(data, number, self.text_of(RULES))
            column = len(data[:start].decode("utf-8", "replace")) + 1
            place = self.paint.bold(f"{text.name}:{line}:{column}")
            self.say(f"{place}: the {role}: {self.named(number, name)}")
            if line <= len(text.starts):
                first = text.starts[line - 1]
                self.lines += text.shown(first + start, first + end, self.paint)
            if data.endswith(b"\r") and role in (SCRIPT, DELAYS, RULES, WAVE):
                self.say("this line ends with CR and LF, as on Windows; only LF may stand there")
        self.cause(number, hint)

    def wrong_words(self) -> None:
        """The words are no command: which one is wrong, where that can be told."""
        words = ["-" if called(word) == STANDARD_INPUT else shlex.quote(word) for word in self.words]
        for index, why in self.taken.faults[:1]:
            left = len(" ".join(["chpx", *words[:index]])) + 1
            wide = len(words[index]) if index < len(words) else 1
            self.say("  " + " ".join(["chpx", *words]))
            self.say("  " + " " * left + self.paint.red("^" * wide) + f" {why}")
        if not forms():
            self.say(f"which word is wrong isn't known {causes.NO_PAGES}")
        elif not self.taken.faults:
            self.say("which word is wrong isn't known here: each looks like one of these forms")
        self.lines += told_forms(self.taken.command)

    def missing_file(self, name: str) -> None:
        """A file can't be read: what it was to be."""
        roles = [role for file, role, _ in self.taken.files if file == name]
        role = f", {' or '.join(roles)}," if roles else ""
        self.say(f"{self.paint.bold(called(name))}: this file{role} can't be read")

    def status(self) -> None:
        """What the table of statuses says."""
        told = causes.statuses().get(self.answer.status)
        if told:
            self.say(f"what happened: {told[0]}")
            self.say(f"what to do: {told[1]}")

    def explain(self) -> list[str]:
        """All that is to be said; nothing where the call went well."""
        said = self.answer.said()
        text_fault, line_fault = TEXT_FAULT.match(said), LINE_FAULT.match(said)
        if self.answer.status == 0:
            self.notes()
        elif text_fault:
            self.refused_text(text_fault)
        elif line_fault:
            self.refused_line(line_fault)
        elif self.answer.status == 2:
            self.wrong_words()
        else:
            if said.startswith("chp: 17 peer ") and said.endswith(".py"):
                self.say("a device in Python is named by --device: `chpx bench PRS --device FILE.py`")
            if said.startswith("chp: 3 read "):
                self.missing_file(said.removeprefix("chp: 3 read "))
            if not causes.statuses() and self.answer.status < 128:
                self.say(causes.NO_PAGES)
            elif self.answer.status not in causes.statuses():
                ended = f"ended by the signal {self.answer.status - 128}" if self.answer.status > 128 else "ended"
                self.say(f"chpc {ended} with a status that no page tells of: {self.answer.status}")
            self.status()
        return self.lines

    def notes(self) -> None:
        """What is no fault, but seldom meant."""
        asked = self.taken.options
        if "--seed" in asked and asked.get("--order") != "random":
            self.say("note: --seed changes nothing without --order random")


def explained(words: Sequence[str], answer: Answer, paint: Paint) -> list[str]:
    """The lines that explain an answer to some words."""
    return Explainer(words, answer, paint).explain()
