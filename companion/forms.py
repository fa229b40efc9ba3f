"""The forms of the program's commands, as the table in docs/COMMANDS.md has them."""

from __future__ import annotations

import functools
import re
from dataclasses import dataclass

from companion.causes import COMMANDS, tables
from companion.devices import KNOWN

PROGRAM, RULES, SCRIPT, DELAYS, WAVE = "program", "rule file", "script", "delay file", "wave file"
# what a file is for, by the word that stands for it in a form, or by the command and that word
ROLES = {"PRS": RULES, "SCRIPT": SCRIPT, "migrate FILE": RULES, "unwave FILE": WAVE, "FILE": PROGRAM}
OPTION_ROLES = {"--delays": DELAYS, "--against": PROGRAM}
# the values of options that have few
VALUES = {
    "--order": ("lowest", "oldest", "newest", "random"),
    "--power": ("low", "high"),
    "--peer": ("ramp", "echo"),
}
# the form of `bench` with a device of the companion's own, and what it does
DEVICE_FORM = ("bench PRS --device NAME ..", "the same against a device in Python: docs/DEVICES.md")
# the least and the greatest number that may stand for a word
RANGES = {
    "--steps": (0, 1_000_000),
    "--rounds": (0, 1_000_000),
    "--seed": (0, 2**64 - 1),
    "SEED": (0, 2**64 - 1),
    "STAGES": (1, 400),
}


@dataclass(frozen=True)
class Form:
    """One form of a command: the words that stand for files and numbers, and its options with the words for their
    values, which are empty for those without one. `needed` are the options that it can't be without."""

    command: str
    text: str
    about: str
    places: tuple[str, ...]
    options: dict[str, str]
    needed: frozenset[str]


def form_of(text: str, about: str) -> Form:
    """A form as the table writes it."""
    bare = re.sub(r"\[([^\]]*)\]", r"?\1?", text)
    options, needed, places = {}, set(), []
    for part in re.findall(r"\?[^?]*\?|--\S+ [A-Zlow|high]+|\S+", bare)[1:]:
        words = part.strip("?").split()
        if words[0].startswith("--"):
            options[words[0]] = words[1] if len(words) > 1 else ""
            if not part.startswith("?"):
                needed.add(words[0])
        else:
            places.append(words[0])
    return Form(text.split()[0], text, about, tuple(places), options, frozenset(needed))


@functools.cache
def forms() -> list[Form]:
    """All forms of all commands."""
    for table in tables(COMMANDS):
        if table.columns[0] == "Words":
            return [form_of(row[0].strip("`"), row[1]) for row in table.rows]
    return []


def forms_of(command: str) -> list[Form]:
    """Those of one command."""
    return [form for form in forms() if form.command == command]


def told_forms(command: str) -> list[str]:
    """The forms of a command for somebody whose words are none, in lines."""
    lines = [f"a form: chpx {form.text}" for form in forms_of(command)]
    if command == "bench":
        lines.append(f"a form: chpx {DEVICE_FORM[0]}")
        python = ", ".join(KNOWN)
        lines.append(f"devices: by --peer {' and '.join(VALUES['--peer'])}; by --device {python}, and files FILE.py")
    return lines


def role_of(command: str, place: str) -> str:
    """What stands at a place of a form: a role of a file, or the word itself where it is none."""
    return ROLES.get(f"{command} {place}", ROLES.get(place, place))
