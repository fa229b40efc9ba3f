"""What each of some words is in the forms of the program's commands."""

from __future__ import annotations

import os
import re
from collections.abc import Sequence
from dataclasses import dataclass, field

from companion.forms import OPTION_ROLES, RANGES, VALUES, Form, forms, forms_of, role_of
from companion.own import OWN


@dataclass
class Taken:
    """What some words are: the files with their roles and the numbers of their words, the values of options, and what
    is wrong, as the number of a word (or of the place behind the last one) and a sentence."""

    command: str
    files: list[tuple[str, str, int]] = field(default_factory=list)
    options: dict[str, str] = field(default_factory=dict)
    faults: list[tuple[int, str]] = field(default_factory=list)

    def named(self, *roles: str) -> list[str]:
        """The names of the files with some role."""
        return [name for name, role, _ in self.files if role in roles]


def number_fault(word: str, place: str) -> str:
    """Why a word isn't the number that is wanted, or nothing."""
    low, high = RANGES[place]
    if not re.fullmatch(r"[0-9]{1,20}", word):
        return f"a number in 1 to 20 decimal digits is wanted here, from {low} to {high}"
    return "" if low <= int(word) <= high else f"a number from {low} to {high} is wanted here"


def take(words: Sequence[str]) -> Taken:
    """Finds out what each word is; nothing where no forms are known."""
    taken = Taken(words[0] if words else "")
    known = forms_of(taken.command)
    if not forms():
        return taken
    if not known:
        names = ", ".join(dict.fromkeys([*(form.command for form in forms()), *OWN]))
        taken.faults.append(
            (0, f"{'there is no such command' if words else 'a command is missing'}; the commands are {names}")
        )
        return taken
    options = {name: value for form in known for name, value in form.options.items()}
    plain: list[tuple[int, str]] = []
    at, is_open, seen = 1, True, {}
    while at < len(words):
        word = words[at]
        name, has_value, value = word.partition("=")
        if word == "--" and is_open:
            is_open = False
        elif not is_open or not word.startswith("-") or word == "-":
            plain.append((at, word))
        elif name not in options:
            there = ", ".join(options) or "none"
            other = elsewhere(taken.command, name, word)
            taken.faults.append((at, other or f"{taken.command} has no such option; it has {there}"))
        elif name in seen:
            taken.faults.append((at, f"{name} stands here the second time"))
        elif not options[name]:
            seen[name] = at
            taken.options[name] = ""
            if has_value:
                taken.faults.append((at, f"{name} has no value"))
        else:
            seen[name] = at
            at += not has_value
            if not has_value and (at == len(words) or words[at].startswith("-") and words[at] != "-"):
                taken.faults.append((at - 1, f"{name} wants a value behind it: {options[name]}"))
                continue
            note_option(taken, name, value if has_value else words[at], at)
        at += 1
    note_places(taken, known, plain, len(words))
    for form in known:
        if set(seen) <= set(form.options):
            break
    else:
        clash = next(
            name for name in seen if any(name not in form.options for form in known if "--delays" in form.options)
        )
        taken.faults.append((seen[clash], f"{clash} and --delays don't stand together: with delays no order is asked"))
    if all(form.needed - set(seen) for form in known):
        lacking = min(known[0].needed - set(seen))
        taken.faults.append((len(words), f"{lacking} {known[0].options[lacking]} is missing"))
    taken.faults.sort()
    return taken


def elsewhere(command: str, name: str, word: str) -> str:
    """Where an option belongs that a command hasn't, or that a word is a file's name; nothing where neither is so."""
    if os.path.exists(word):
        return "a file whose name begins with `-` comes behind `--`"
    known = [form.command for form in forms() if name in form.options]
    return f"{command} has no such option; `{name}` is one of {known[0]}" if known else ""


def note_option(taken: Taken, name: str, value: str, at: int) -> None:
    """Keeps an option with its value."""
    taken.options[name] = value
    if name in OPTION_ROLES:
        taken.files.append((value, OPTION_ROLES[name], at))
    if name in RANGES and number_fault(value, name):
        taken.faults.append((at, number_fault(value, name)))
    if name == "--power" and value not in VALUES[name]:
        taken.faults.append((at, f"{' or '.join(VALUES[name])} is wanted here"))


def note_places(taken: Taken, known: list[Form], plain: list[tuple[int, str]], end: int) -> None:
    """Keeps the words that are no options: files and numbers, each at its place."""
    places = known[0].places
    for (at, word), place in zip(plain, places):
        role = role_of(taken.command, place)
        if place in RANGES:
            if number_fault(word, place):
                taken.faults.append((at, number_fault(word, place)))
        else:
            taken.files.append((word, role, at))
    wanted = " and ".join(places)
    for at, _ in plain[len(places) :]:
        taken.faults.append((at, f"one word too many: {taken.command} takes {wanted}"))
    for place in places[len(plain) :]:
        taken.faults.append((end, f"{place} is missing: {taken.command} takes {wanted}"))
        break
