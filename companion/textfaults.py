"""What the text itself tells of a refused place: widths, precedence, what could stand there, open brackets."""

from __future__ import annotations

import difflib
from dataclasses import dataclass, field

from companion import expected, widths
from companion.chp_reader import read_program
from companion.chp_tokens import Token, Unread, number_of
from companion.chp_tree import CLOSING, OPENING, Program

SYNTAX, UNDECLARED, WIDTH, TOO_WIDE, UNKNOWN, SLICE = 11, 21, 24, 25, 26, 27
ENDS = {b"end": "", b")": "(", b"]": "[", b"}": "{", b"": ""}  # what may close too early, with what each closes


@dataclass
class Found:
    """What is said in place of the general sentence, and what to write instead; the kinds of tokens that could stand
    there; and the brackets that are open, each by its bytes from..to. Nothing where it isn't known."""

    what: str = ""
    instead: str = ""
    wanted: list[str] = field(default_factory=list)
    opened: list[tuple[int, int]] = field(default_factory=list)


def of(data: bytes, number: int, start: int, end: int) -> Found:
    """What is known of a refused place."""
    if number == SYNTAX:
        wanted, opened = expected.at_fault(data, start)
        is_early = bool(opened) and data[start:end] in ENDS and ENDS[data[start:end]] != opened[-1].kind
        last = [(opened[-1].start, opened[-1].end)] if is_early else []
        way = closed_first(data[start:end], opened, wanted) if is_early else ""
        what = "this can't stand here" if wanted and start < len(data) else ""
        return Found(what=what, instead=way, wanted=wanted, opened=last)
    try:
        it = read_program(data)
    except Unread:
        return Found()
    if number in (WIDTH, TOO_WIDE):
        told = widths.told(it, number, start, end, data)
        tighter = before_compared(it, data, start, end) if number == WIDTH else ""
        return Found(what=told[0], instead=tighter or told[1]) if told else Found()
    if number == SLICE:
        return of_slice(it, data[start:end].decode("latin-1"))
    if number == UNDECLARED:
        return Found(instead=declared(it, start, data[start:end].decode("latin-1")))
    return Found(instead=bound_tighter(it, data, start, end)) if number == UNKNOWN else Found()


def closed_first(early: bytes, opened: list[Token], wanted: list[str]) -> str:
    """What closes the brackets that have to be closed before what stands too early; nothing where more than that is
    missing, or where another bracket may have been meant."""
    inside = []
    for token in reversed(opened):
        if token.kind == ENDS[early]:
            break
        inside.append(CLOSING[OPENING.index(token.kind)])
    else:
        if ENDS[early]:
            return ""
    if f"`{inside[0]}`" not in wanted:
        return ""
    return f"`{''.join(inside)}` before `{early.decode()}`" if early else f"`{''.join(inside)}`, and then `end`"


def of_slice(it: Program, text: str) -> Found:
    """For bits that a variable doesn't have: those that it has, or the two numbers the other way round."""
    name, _, rest = text.partition("[")
    bits = [number_of(word.strip()) for word in rest.rstrip("] \n\t").split(":")]
    decl = it.of_kind("var").get(name.strip())
    if decl is None or None in bits:
        return Found()
    numbers = [bit for bit in bits if bit is not None]
    has = f"{decl.name} has the bits {decl.width - 1} to 0"
    if max(numbers) >= decl.width:
        return Found(what=has, instead=f"bits from {decl.width - 1} down to 0, or a wider variable")
    return Found(what="the higher number comes first", instead=f"`{decl.name}[{max(numbers)}:{min(numbers)}]`")


def declared(it: Program, start: int, name: str) -> str:
    """How a name is declared that nothing declares, by how it is used there; or the one that it may be meant for."""
    known = [*(decl.name for decl in it.decls), *it.procs]
    near = difflib.get_close_matches(name, known, 1, 0.65)
    also = f", or `{near[0]}`, if that was meant" if near else ""
    for stmt in it.statements():
        if stmt.name == name and stmt.start == start and stmt.kind in ("send", "receive"):
            kind = "out" if stmt.kind == "send" else "in"
            return f"a channel is declared, as by `{kind} {name} : 8;`, or `chan` between two branches{also}"
        if stmt.kind == "call" and stmt.name == name:
            return f"a procedure is declared, as by `proc {name} = skip;`{also}"
    return f"a variable is declared, as by `var {name} : 8;`{also}"


def before_compared(it: Program, data: bytes, start: int, end: int) -> str:
    """For `a` in `a & b = c`, which is wanted to have one bit since `b = c` has: that `=` binds tighter."""
    found = widths.parent_of(it, start, end)
    if not found or found[1] + 1 == len(found[0].parts) or found[0].parts[found[1] + 1].kind != "compare":
        return ""
    compare = found[0].parts[found[1] + 1]
    return bound_tighter(it, data, compare.start, compare.end)


def bound_tighter(it: Program, data: bytes, start: int, end: int) -> str:
    """For a comparison of two numbers within `a & b = c`: that `=` binds tighter."""
    found = widths.parent_of(it, start, end)
    if not found or not found[1]:
        return ""
    chain, at = found
    compare = chain.parts[at]
    left = data[chain.parts[0].start : compare.parts[0].end].decode("latin-1")
    right = data[compare.parts[1].start : compare.end].decode("latin-1")
    sign = compare.ops[0]
    return f"`({left}) {sign} {right}`: `{sign}` binds tighter than `&`, `^` and `|`"
