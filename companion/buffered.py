"""`buffered`: the text of a program with a one-place buffer on a channel."""

from __future__ import annotations

import sys
from collections.abc import Sequence

from companion import options, program
from companion.buffers import asked, buffered_text
from companion.chp_tokens import Unread
from companion.options import Parser
from companion.program import Refusal
from companion.terminal import Progress

ABOUT = """\
Prints a program with a one-place buffer on its channel X, as `chpc compile F --buffer X` makes it. So
`chpc simulate .. --against` can be asked of the buffered circuit. Calls of procedures are replaced by
their bodies there, and so they are here. Where `compile` makes another rule file of the text than of
F with --buffer X, a line on standard error says so."""


def main(words: Sequence[str]) -> int:
    """Runs the command."""
    made = Parser("buffered", ABOUT)
    made.add_argument("file", metavar="F", help="the program")
    made.add_argument("channel", metavar="X", help="a channel that is declared by `chan`")
    given = made.parse_args(words)
    with Progress(f"{given.file} with a buffer"):
        asked(given.file, given.channel)
        try:
            text = buffered_text(options.read(given.file), given.channel)
        except Unread as error:
            raise Refusal(f"{given.file} can't be read here: {error}") from error
        name = f"{options.room()}/buffered.chp"
        options.write(name, text)
        wanted = program.answer(["compile", given.file, f"--buffer={given.channel}"])
        got = program.answer(["compile", name])
    sys.stdout.write(text.decode("utf-8", "surrogateescape"))
    if (got.status, got.out) != (wanted.status, wanted.out):
        print("chpx: `compile` makes another rule file of this text than with --buffer", file=sys.stderr)
    return 0
