"""Marks in a program's text that say from which file its lines come, as `chpx link` writes them:

    //#line LINE:COLUMN "FILE"    the next line's first token stands there, the others behind it, and so line by line
    //#line LINE "FILE"           the next line comes of this line of a text that was worked on, as by m4
"""

from __future__ import annotations

import functools
import os
import re
from dataclasses import dataclass

from companion.chp_tokens import PATTERN
from companion.labels import called

MARK = re.compile(rb'//#line (\d+)(?::(\d+))? "([^"]*)"')


@dataclass(frozen=True)
class Source:
    """Where a line comes from: the file as it is called, its line, the bytes of that (none where it can't be read), and
    the columns, in bytes from 0, at which the line's tokens stand there, where that is known."""

    name: str
    line: int
    text: bytes | None = None
    tokens: tuple[tuple[int, int], ...] = ()


def tokens_in(line: bytes) -> list[tuple[int, int]]:
    """The stretches of a line's tokens."""
    return [it.span() for it in PATTERN.finditer(line) if it.lastgroup != "blank"]


@functools.cache
def lines_of(name: str) -> list[bytes]:
    """The lines of a file; none where it can't be read."""
    try:
        with open(name, "rb") as file:
            return file.read().split(b"\n")
    except OSError:
        return []


def sources(name: str, data: bytes) -> dict[int, Source]:
    """For each line of a text, by its number, where it comes from; nothing of lines above the first mark."""
    found: dict[int, Source] = {}
    if b"//#line " not in data:
        return found
    mark: tuple[str, str, int, int] | None = None
    for number, line in enumerate(data.split(b"\n"), 1):
        told = MARK.match(line)
        if told:
            given = told[3].decode("utf-8", "replace")
            path = given if os.path.isfile(given) else os.path.join(os.path.dirname(name), given)
            mark = (called(given), path, int(told[1]) - number - 1, int(told[2] or 0))
            continue
        if line.startswith(b"//#end"):
            mark = None
        if mark is None:
            continue
        lines, at = lines_of(mark[1]), mark[2] + number
        text = lines[at - 1] if 0 < at <= len(lines) else None
        if text is None or mark[3] == 0:
            found[number] = Source(mark[0], at)
            continue
        tokens = tuple(it for it in tokens_in(text) if it[0] >= mark[3] - 1)
        found[number] = Source(mark[0], at, text, tokens)
        mark = (mark[0], mark[1], mark[2], 1)
    return found


def stretch(source: Source, line: bytes, start: int, end: int) -> tuple[int, int] | None:
    """Where in the source's line those tokens stand that are in the bytes from..to of the text's line."""
    tokens = tokens_in(line)
    some = [at for at, it in enumerate(tokens) if it[1] > start and it[0] < max(end, start + 1)]
    if not some or some[-1] >= len(source.tokens):
        return None
    return source.tokens[some[0]][0], source.tokens[some[-1]][1]
