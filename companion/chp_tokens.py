"""The tokens of a program text, read tolerantly: the companion's own reading, for places alone. What is a program and
what isn't is told by chpc."""

from __future__ import annotations

import re
from dataclasses import dataclass

KEYWORDS = ("in", "out", "chan", "var", "begin", "end", "skip", "proc", "call")
SIGNS = ("||", "[]", "[|", ":=", "->", "!=", "<=", ">=", *";,:!?()[]{}*#~&|^+-=<>")
PATTERN = re.compile(
    rb"(?P<blank>[ \t\r\n]+|//[^\n]*)|(?P<run>[A-Za-z0-9_]+)|(?P<sign>"
    + b"|".join(re.escape(sign.encode()) for sign in SIGNS)
    + rb")|(?P<other>.)",
    re.DOTALL,
)


class Unread(Exception):
    """A text that this reading can't follow, with the byte at which it stops."""

    def __init__(self, why: str, at: int) -> None:
        super().__init__(why)
        self.why = why
        self.at = at


@dataclass(frozen=True)
class Token:
    """A token: `name`, `number`, or the keyword or sign that it is; its text; and its bytes from..to."""

    kind: str
    text: str
    start: int
    end: int


def number_of(text: str) -> int | None:
    """The number that a run is, or none."""
    if re.fullmatch(r"0x[0-9A-Fa-f]{1,16}", text):
        return int(text, 16)
    return int(text) if text.isdigit() else None


def tokens_of(data: bytes) -> list[Token]:
    """All tokens of a text, and behind them one of the kind `eof`. Raises Unread where some byte is none."""
    found = []
    for it in PATTERN.finditer(data):
        if it.lastgroup == "blank":
            continue
        text = it[0].decode("latin-1")
        if it.lastgroup == "other":
            raise Unread("no token", it.start())
        if it.lastgroup == "sign" or text in KEYWORDS:
            kind = text
        elif number_of(text) is not None:
            kind = "number"
        elif text[0].isalpha():
            kind = "name"
        else:
            raise Unread("no token", it.start())
        found.append(Token(kind, text, it.start(), it.end()))
    return [*found, Token("eof", "", len(data), len(data))]
