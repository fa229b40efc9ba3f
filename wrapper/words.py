"""The words of a command line, looked at before anything is built. The forms of the commands are those of the table in
docs/COMMANDS.md, as the companion reads it; where the folder docs isn't there nothing is known of them, and all words
are left to the program."""

from __future__ import annotations

import os
from collections.abc import Sequence

import companion.forms as table


def help_lines() -> str:
    """The forms of all commands, each with what it prints."""
    told = [f"{form.text}\n    {form.about}\n" for form in table.forms()]
    return "".join(told) or "(the commands are told in docs/COMMANDS.md, which isn't here)\n"


def forms() -> dict[str, tuple[tuple[str, ...], dict[str, str]]]:
    """For each command what its words stand for, and its options with what their values stand for (nothing where an
    option has no value)."""
    found: dict[str, tuple[tuple[str, ...], dict[str, str]]] = {}
    for form in table.forms():
        found.setdefault(form.command, (form.places, {}))[1].update(form.options)
    return found


def split(words: Sequence[str]) -> tuple[list[int], list[tuple[str, int]], str | None]:
    """Where the words without an option stand behind the command, each option with the place of its value (0 where it
    has none), and what is wrong with an option, if something is."""
    options = forms()[words[0]][1]
    plain, given, at = [], [], 1
    while at < len(words):
        word, at = words[at], at + 1
        if word == "--":
            return plain + list(range(at, len(words))), given, None
        name, is_joined, _ = word.partition("=")
        if word[:1] != "-" or word == "-":
            plain.append(at - 1)
        elif name not in options:
            return plain, given, f"{words[0]} has no option {name}"
        elif options[name] and not is_joined:
            if at == len(words):
                return plain, given, f"{name} wants {options[name]} behind it"
            given.append((name, at))
            at += 1
        else:
            given.append((name, at - 1 if is_joined else 0))
    return plain, given, None


def fault(words: Sequence[str]) -> tuple[int, str] | None:
    """What is plainly wrong with the words, with the status that the program ends with: no such command or option, a
    word too many or too few, a file that isn't there. Everything else the program finds itself."""
    if not forms():
        return None
    if words[0] not in forms():
        return 2, f"there is no command {words[0]}"
    places, options = forms()[words[0]]
    plain, given, wrong = split(words)
    if wrong:
        return 2, wrong
    if len(plain) != len(places):
        return 2, f"{words[0]} takes {' '.join(places)}, and has {len(plain)} of these {len(places)} words"
    wanted = frozenset.intersection(*(form.needed for form in table.forms_of(words[0])))
    for name in sorted(wanted - {name for name, _ in given}):
        few = table.VALUES.get(name)
        return 2, f"{words[0]} lacks {name} {options[name]}" + (f" ({' or '.join(few)})" if few else "")
    for name in named_files(words):
        if not os.path.exists(name):
            return 3, f"{name}: there is no such file"
        if os.path.isdir(name) or not os.access(name, os.R_OK):
            return 3, f"{name} can't be read"
    return None


def named_files(words: Sequence[str]) -> list[str]:
    """The names of files among the words."""
    places, options = forms()[words[0]]
    plain, given, _ = split(words)
    found = [words[at] for at, place in zip(plain, places) if place in table.ROLES]
    return found + [words[at].partition("=")[2] if "=" in words[at] and words[at].startswith(name) else words[at]
                    for name, at in given if options[name] in table.ROLES]
