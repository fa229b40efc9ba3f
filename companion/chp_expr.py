"""Expressions as trees, read by the grammar of docs/LANGUAGE.md, beside the proved reading of chpc."""

from __future__ import annotations

from collections.abc import Iterator
from dataclasses import dataclass, field
from typing import TYPE_CHECKING

from companion.chp_tokens import Token, number_of

if TYPE_CHECKING:
    from companion.chp_tree import Reader

COMPARISONS = ("=", "!=", "<", "<=", ">", ">=")
# the levels of chains, from the one that binds least, with the operators of each; comparisons stand between `&` and `+`
LEVELS: tuple[tuple[str, ...], ...] = (("|",), ("^",), ("&",), COMPARISONS, ("+", "-"))


@dataclass(frozen=True)
class Use:
    """Bits of a variable that an expression reads: from `low` up to `high`; -1 stands for the whole variable."""

    name: str
    high: int = -1
    low: int = -1


@dataclass
class Node:
    """A part of an expression. `kind` is `number`, `name`, `bits`, `join`, `not`, `compare` or `chain`; `value` is a
    number's, `use` what a name or bits read, `ops` the operators between the `parts` of a comparison or a chain."""

    kind: str
    start: int
    end: int
    value: int = 0
    use: Use | None = None
    ops: list[str] = field(default_factory=list)
    parts: list[Node] = field(default_factory=list)

    def walk(self) -> Iterator[Node]:
        """The part and all in it."""
        yield self
        for part in self.parts:
            yield from part.walk()


def expression(reader: Reader, level: int = 0) -> Node:
    """An expression of a level of the grammar, 0 being all."""
    if level == len(LEVELS):
        return negated(reader)
    parts, ops = [expression(reader, level + 1)], []
    while not (ops and LEVELS[level] is COMPARISONS) and reader.sees(*LEVELS[level]):
        ops.append(reader.take(*LEVELS[level]).kind)
        parts.append(expression(reader, level + 1))
    if not ops:
        return parts[0]
    kind = "compare" if LEVELS[level] is COMPARISONS else "chain"
    return Node(kind, parts[0].start, parts[-1].end, ops=ops, parts=parts)


def negated(reader: Reader) -> Node:
    """An expression without an operator between two, maybe behind one `~`."""
    if not reader.sees("~"):
        return primary(reader)
    tilde = reader.take("~")
    inner = primary(reader)
    return Node("not", tilde.start, inner.end, parts=[inner])


def primary(reader: Reader) -> Node:
    """A number, a name with its bits, a join, or an expression in brackets."""
    token = reader.take("number", "name", "{", "(")
    if token.kind == "number":
        return Node("number", token.start, token.end, value=number_of(token.text) or 0)
    if token.kind == "name":
        return bits(reader, token)
    if token.kind == "(":
        inner = expression(reader)
        reader.take(")")
        return inner
    parts = [expression(reader)]
    while reader.has(","):
        parts.append(expression(reader))
    return Node("join", token.start, reader.take("}").end, parts=parts)


def bits(reader: Reader, name: Token) -> Node:
    """A name, and the bits behind it, if there are any."""
    if not reader.has("["):
        return Node("name", name.start, name.end, use=Use(name.text))
    high = low = number_of(reader.take("number").text) or 0
    if reader.has(":"):
        low = number_of(reader.take("number").text) or 0
    return Node("bits", name.start, reader.take("]").end, use=Use(name.text, high, low))
