"""Places in texts: lines and columns for byte offsets, and the line with a caret below it."""

from __future__ import annotations

import functools
from dataclasses import dataclass

from companion.labels import called
from companion.marks import Source, sources, stretch
from companion.terminal import Paint

WIDEST = 100  # columns of a source line that are shown


@dataclass(frozen=True)
class Place:
    """Where something stands: line and column, both from 1, the columns counted in characters."""

    line: int
    column: int


class Text:
    """A file's bytes with the name by which a person knows it."""

    def __init__(self, name: str, data: bytes) -> None:
        self.path = name
        self.name = called(name)
        self.data = data
        self.starts = [0, *(at + 1 for at, byte in enumerate(data) if byte == 10)]

    def line_at(self, offset: int) -> int:
        """The number of the line, from 1, in which a byte offset lies."""
        low, high = 0, len(self.starts)
        while high - low > 1:
            middle = (low + high) // 2
            low, high = (middle, high) if self.starts[middle] <= offset else (low, middle)
        return low + 1

    def line(self, number: int) -> bytes:
        """The bytes of a line, without its end; nothing where there is no such line."""
        if number > len(self.starts):
            return b""
        return self.data[self.starts[number - 1] :].split(b"\n", 1)[0]

    @functools.cached_property
    def sources(self) -> dict[int, Source]:
        """Of which file's lines its own lines come, where marks say so."""
        return sources(self.path, self.data)

    def place(self, offset: int) -> Place:
        """Line and column of a byte offset."""
        number = self.line_at(offset)
        before = self.data[self.starts[number - 1] : offset]
        return Place(number, len(before.decode("utf-8", "replace")) + 1)

    def source(self, start: int, end: int) -> tuple[Source, tuple[int, int] | None] | None:
        """The line of another file of which a stretch of bytes comes, and its bytes there, where that is known."""
        number = self.line_at(start)
        if number not in self.sources:
            return None
        it, first = self.sources[number], self.starts[number - 1]
        return it, stretch(it, self.line(number), start - first, end - first) if it.text is not None else None

    def told(self, offset: int) -> str:
        """FILE:LINE:COLUMN of a byte offset; where it comes of another file, FILE:LINE of that, with the column if that
        is known, or else with the place here."""
        it = self.place(offset)
        here = f"{self.name}:{it.line}:{it.column}"
        told = self.source(offset, offset + 1)
        if told is None:
            return here
        source, there = told
        if there is None or source.text is None:
            return f"{source.name}:{source.line} ({here})"
        return f"{source.name}:{source.line}:{len(source.text[: there[0]].decode('utf-8', 'replace')) + 1}"

    def shown(self, start: int, end: int, paint: Paint) -> list[str]:
        """The line of a stretch of bytes, and a line with carets below its first line's part."""
        told = self.source(start, end)
        if told and told[1] and told[0].text is not None:
            return marked(told[0].text, *told[1], told[0].line, paint)
        number = self.line_at(start)
        from_line = self.starts[number - 1]
        return marked(self.line(number), start - from_line, end - from_line, number, paint)


def visible(data: bytes) -> str:
    """Bytes as characters of which each takes one column: a tab becomes a blank, other control characters a dot."""
    text = data.decode("utf-8", "replace")
    return "".join(" " if it == "\t" else it if it.isprintable() else "·" for it in text)


def marked(line: bytes, start: int, end: int, number: int, paint: Paint) -> list[str]:
    """A line and its carets: below the bytes from `start` to `end` of it, below one column at least. Of a long line
    only the part round the place is shown."""
    left = len(visible(line[:start]))
    wide = max(1, len(visible(line[start : min(end, len(line))])))
    text = visible(line.rstrip(b"\r") if start < len(line.rstrip(b"\r")) else line)
    first = max(0, left - WIDEST // 2) if len(text) > WIDEST else 0
    front = ".. " if first else ""
    shown = text[first : first + WIDEST]
    back = " .." if first + WIDEST < len(text) else ""
    wide = min(wide, max(1, len(shown) - (left - first)))
    margin = f"{number:5} | "
    carets = " " * (len(front) + left - first) + paint.red("^" * wide)
    return [paint.dim(margin) + front + shown + back, paint.dim(" " * 5 + " | ") + carets]
