"""How many bits an expression has and how many are wanted of it, as docs/LANGUAGE.md says how widths go."""

from __future__ import annotations

from collections.abc import Iterator

from companion.chp_expr import Node
from companion.chp_tree import Decl, Program, Stmt

Widths = dict[str, int]  # of each channel and variable by its name


def own(node: Node, widths: Widths) -> int | None:
    """The width that an expression has by itself; none where there are only numbers."""
    if node.kind == "number":
        return None
    if node.kind == "name":
        return widths.get(node.use.name) if node.use else None
    if node.kind == "bits":
        assert node.use is not None
        return node.use.high - node.use.low + 1
    if node.kind == "compare":
        return 1
    if node.kind == "join":
        return sum(own(part, widths) or 0 for part in node.parts)
    return next((wide for part in node.parts if (wide := own(part, widths))), None)


def wants(node: Node, wanted: int | None, widths: Widths) -> Iterator[tuple[Node, int | None]]:
    """An expression and all in it, each with the width that is wanted of it, the outer ones first."""
    yield node, wanted
    inner = wanted
    if node.kind == "compare":
        inner = own(node.parts[0], widths) or own(node.parts[1], widths)
    for part in node.parts:
        yield from wants(part, own(part, widths) if node.kind == "join" else inner, widths)


def of_statement(stmt: Stmt, widths: Widths) -> Iterator[tuple[Node, int | None]]:
    """All expressions of a statement, with what is wanted of each."""
    for guard in stmt.guards:
        yield from wants(guard.tree, 1, widths)
    if stmt.value is not None:
        yield from wants(stmt.value.tree, widths.get(stmt.name), widths)


def at_place(it: Program, start: int, end: int) -> tuple[Node, int | None] | None:
    """The outer expression that stands at a place, with what is wanted of it."""
    widths = {decl.name: decl.width for decl in it.decls}
    for stmt in it.statements():
        for node, wanted in of_statement(stmt, widths):
            if (node.start, node.end) == (start, end):
                return node, wanted
    return None


def parent_of(it: Program, start: int, end: int) -> tuple[Node, int] | None:
    """The chain in which the expression at a place is a member, and the number of the member."""
    widths = {decl.name: decl.width for decl in it.decls}
    for stmt in it.statements():
        for node, _ in of_statement(stmt, widths):
            for at, part in enumerate(node.parts if node.kind == "chain" else []):
                if (part.start, part.end) == (start, end):
                    return node, at
    return None


def counted(bits: int) -> str:
    """So many bits in words."""
    return f"{bits} bit{'s' * (bits != 1)}"


def narrower(node: Node, text: str, wanted: int) -> str:
    """What to write where an expression has too many bits."""
    if wanted == 1 and node.kind in ("name", "bits"):
        return f"`{text} != 0` is one bit, and so is a bit by itself, as `{node.use.name if node.use else text}[0]`"
    if node.kind == "name":
        return f"the low {counted(wanted)}: `{text}[{wanted - 1}:0]`"
    if node.kind == "bits" and node.use:
        return f"the low {counted(wanted)}: `{node.use.name}[{node.use.low + wanted - 1}:{node.use.low}]`"
    return f"something of {counted(wanted)}; bits are taken of variables alone, so assign it to one first"


def wider(node: Node, text: str, wanted: int, has: int) -> str:
    """What to write where an expression has too few bits."""
    lacks = wanted - has
    if node.kind == "name" and lacks < has:
        return f"zeros before it: `{{{text}[{lacks - 1}:0] & 0, {text}}}`"
    if node.kind == "name" and lacks == has:
        return f"zeros before it: `{{{text} & 0, {text}}}`"
    return f"zeros before it: `{{z, {text}}}`, where `var z : {lacks};` is never assigned, so that it stays 0"


def told(it: Program, number: int, start: int, end: int, data: bytes) -> tuple[str, str] | None:
    """For 24 Width and 25 ConstantTooWide: what is wanted at the place and what is there, and one way out."""
    widths = {decl.name: decl.width for decl in it.decls}
    for stmt in it.statements():
        if stmt.kind == "receive" and stmt.target_at == (start, end):
            return received(stmt, widths)
    found = at_place(it, start, end)
    if found is None:
        return first_value(it, number, start, end, data)
    node, wanted = found
    text = data[start:end].decode("latin-1")
    if node.kind == "number" and wanted:
        bits = node.value.bit_length()
        return (f"{counted(wanted)} wanted here, and {text} needs {counted(bits)}",
                f"a number below {1 << wanted}, or a wider channel or variable")
    has = own(node, widths)
    if has is None or not wanted or has == wanted:
        return (f"a join of {counted(has)}", "64 bits at most") if has and has > 64 else None
    way = narrower(node, text, wanted) if has > wanted else wider(node, text, wanted, has)
    return f"{counted(wanted)} wanted here, and `{short(text)}` has {has}", way


def short(text: str) -> str:
    """A text on one line, cut where it is long."""
    line = " ".join(text.split())
    return line if len(line) <= 40 else line[:37] + " .."


def received(stmt: Stmt, widths: Widths) -> tuple[str, str] | None:
    """A receive into a variable of another width."""
    wanted, has = widths.get(stmt.name), widths.get(stmt.target)
    if not wanted or not has:
        return None
    return (f"the channel {stmt.name} carries {counted(wanted)}, and the variable {stmt.target} has {has}",
            f"`var {stmt.target} : {wanted};`, or a variable of {counted(wanted)} from which the value goes on")


def of_bits(name: str, high: int, low: int) -> str:
    """Bits of a variable, as a program has them."""
    return f"{name}[{high}:{low}]" if high > low else f"{name}[{low}]"


def received_into(decls: list[Decl], taken: set[str], channel: str, name: str, high: int, low: int) -> str:
    """What to write for a receive into bits of a variable, with a variable whose name isn't taken; nothing where there
    is no such channel or no such bits. Where the channel carries fewer bits, the lowest of those that are written."""
    widths = {decl.name: decl.width for decl in decls}
    carried, has = widths.get(channel, 0), widths.get(name, 0)
    if not carried or not low <= high < has:
        return ""
    high = min(high, low + carried - 1)
    bits = high - low + 1
    if carried == bits == has:
        return f"`{channel}?{name}`"
    names = {*widths, *taken}
    free = next(it for it in ("t", "u", "v", *(f"t{at}" for at in range(len(names)))) if it not in names)
    parts = [of_bits(name, has - 1, high + 1)] * (high + 1 < has)
    parts += [free if carried == bits else of_bits(free, bits - 1, 0)] + [of_bits(name, low - 1, 0)] * (low > 0)
    value = parts[0] if len(parts) == 1 else f"{{{', '.join(parts)}}}"
    return f"`var {free} : {carried};`, and then `{channel}?{free}; {name} := {value}`"


def first_value(it: Program, number: int, start: int, end: int, data: bytes) -> tuple[str, str] | None:
    """The first value of a declaration that doesn't fit."""
    text = data[start:end].decode("latin-1")
    decl = next((decl for decl in reversed(it.decls) if decl.end <= start), None)
    if number != 25 or decl is None or not text[:1].isdigit():
        return None
    value = int(text, 16) if text.startswith("0x") else int(text)
    return (f"{decl.name} has {counted(decl.width)}, and {text} needs {counted(value.bit_length())}",
            f"a number below {1 << decl.width}, or `var {decl.name} : {value.bit_length()}`")
