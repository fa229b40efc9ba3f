"""The words of the companion's own commands."""

from __future__ import annotations

import argparse
import contextlib
import os
import sys
import tempfile
from collections.abc import Sequence
from typing import NoReturn

from companion.labels import STANDARD_INPUT, called, label
from companion.program import Refusal


def natural(word: str) -> int:
    """A number from 0 on, as a word gives it."""
    if not word.isdecimal() or not word.isascii():
        raise argparse.ArgumentTypeError(f"{word} isn't a number from 0 on")
    return int(word)


READ = ("PRS", "SCRIPT", "F", "file.chp")  # what stands for a file that is read, before the program may be built for it


class Parser(argparse.ArgumentParser):
    """A parser that ends with 2 for wrong words, as chpc does, and says which word is wrong."""

    def __init__(self, command: str, about: str, more: str = "") -> None:
        super().__init__(
            prog=f"chpx {command}",
            description=about,
            epilog=more,
            formatter_class=argparse.RawDescriptionHelpFormatter,
            allow_abbrev=False,
        )

    def parse_args(self, args=None, namespace=None):  # type: ignore[no-untyped-def, override]
        """The words; a file whose name begins with `-`, behind `--`, is named by its folder too, for the program."""
        given = super().parse_args(args, namespace)
        for name, word in vars(given).items():
            if isinstance(word, str) and word.startswith("-") and os.path.exists(word):
                setattr(given, name, f"./{word}")
        for action in self._actions:
            named = getattr(given, action.dest, None) if action.metavar in READ else None
            for word in named if isinstance(named, list) else [named]:
                if word is not None and not os.path.exists(word):
                    raise Refusal(f"{called(word)}: there is no such file", 3)
        return given

    def error(self, message: str) -> NoReturn:
        raise Refusal(f"{message}\n{self.format_usage().strip()}", 2)

    def run_files(self) -> None:
        """The words of a timed run: a rule file and a script, with delays and a limit of moves."""
        self.add_argument("rules", metavar="PRS", help="the rule file")
        self.add_argument("script", metavar="SCRIPT", help="what the environment sends and takes")
        self.add_argument("--delays", metavar="FILE", help="how long moves take; without it each takes 1")
        self.add_argument("--steps", metavar="N", type=natural, help="the most moves that are made (100,000)")

    def program_file(self, required: bool = True) -> None:
        """The words for the program that a rule file was compiled from."""
        about = "the program that PRS was compiled from"
        self.add_argument("--program", metavar="F", required=required, help=about)
        self.buffer()

    def buffer(self) -> None:
        """The word for a circuit with a buffer."""
        self.add_argument("--buffer", metavar="X", help="the circuit has a buffer on the channel X, as by `compile`")


_rooms = contextlib.ExitStack()


def room() -> str:
    """A folder for files of the companion's own."""
    return _rooms.enter_context(tempfile.TemporaryDirectory(prefix="chpx-"))


def leave() -> None:
    """Takes these folders away."""
    _rooms.close()


def with_standard_input(words: Sequence[str]) -> list[str]:
    """The words with the name of a file in place of `-`, which holds what came on standard input."""
    if "-" not in words:
        return list(words)
    if list(words).count("-") > 1:
        raise Refusal("`-` may stand once: standard input can be read once", 2)
    name = os.path.join(room(), "standard-input")
    write(name, sys.stdin.buffer.read())
    label(name, STANDARD_INPUT)
    return [name if word == "-" else word for word in words]


def read(name: str) -> bytes:
    """The bytes of a file."""
    try:
        with open(name, "rb") as file:
            return file.read()
    except OSError as error:
        raise Refusal(f"{called(name)} can't be read: {error.strerror}", 3) from error


def write(name: str, data: bytes | str) -> None:
    """Writes a file whole."""
    try:
        with open(name, "wb") as file:
            file.write(data.encode() if isinstance(data, str) else data)
    except OSError as error:
        raise Refusal(f"{name} can't be written: {error.strerror}", 4) from error


def stem(name: str) -> str:
    """The last part of a file's name, without its ending."""
    return os.path.splitext(os.path.basename(name))[0]
