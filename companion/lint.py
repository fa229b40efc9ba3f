"""`lint`: what a program that chpc accepts may still be doing wrong."""

from __future__ import annotations

import sys
from collections.abc import Iterator, Sequence

from companion import options, program
from companion.as_json import put
from companion.check import place
from companion.chp_reader import read_program
from companion.chp_tokens import Unread
from companion.chp_tree import Program, Stmt
from companion.guards import MOST_BITS, Choice, bits_read, choices_of, is_wide
from companion.options import Parser
from companion.places import Text
from companion.program import Refusal
from companion.terminal import Paint, Progress

ABOUT = f"""\
Looks at a program that `chpc check` accepts for what is seldom meant: selections in which for some
values no guard is true, or several are; guards that are never true, or always; variables and
channels that nothing uses, variables that are written and never read, or read and never written
(but for one that stands in joins alone, as zeros do); a channel inside of the program with one end;
and a loop that can never be left though something follows it. Guards are tried by `chpc run` on all
values of the bits that they read, up to {MOST_BITS} bits; wider ones at the ends of their ranges
alone: the least and the greatest values, and those next to the numbers in the guards. Whether a value
that is told ever comes, lint doesn't know. The status is 20 where it found something."""
FOUND = 20
Finding = tuple[int, int, str]  # the bytes from..to, and what is to be said


def unused(it: Program) -> Iterator[Finding]:
    """Variables and channels that no statement uses, and internal channels with one end."""
    sends = {stmt.name for stmt in it.statements() if stmt.kind == "send"}
    receives = {stmt.name for stmt in it.statements() if stmt.kind == "receive"}
    written = {stmt.name for stmt in it.statements() if stmt.kind in ("assign", "through")}
    written |= {stmt.target for stmt in it.statements() if stmt.kind == "receive"}
    read = {use.name for stmt in it.statements() for expr in (stmt.value, *stmt.guards) if expr for use in expr.uses}
    zeros = read - read_outside_joins(it)
    for decl in it.decls:
        if decl.kind == "var":
            if decl.name not in written | read:
                yield decl.start, decl.end, f"the variable {decl.name} isn't used"
            elif decl.name not in read:
                yield decl.start, decl.end, f"the variable {decl.name} is written and never read"
            elif decl.name not in written | zeros:
                what = "is read and never written: it keeps its first value"
                yield decl.start, decl.end, f"the variable {decl.name} {what}"
        elif decl.name not in sends | receives:
            yield decl.start, decl.end, f"the channel {decl.name} isn't used"
        elif decl.kind == "chan" and decl.name not in receives:
            yield decl.start, decl.end, f"nothing is received on {decl.name}, so a send on it waits for ever"
        elif decl.kind == "chan" and decl.name not in sends:
            yield decl.start, decl.end, f"nothing is sent on {decl.name}, so a receive on it waits for ever"


def read_outside_joins(it: Program) -> set[str]:
    """The variables that are read elsewhere than as a member of `{..}`."""
    found = set()
    for stmt in it.statements():
        for expr in (stmt.value, *stmt.guards):
            nodes = list(expr.tree.walk()) if expr else []
            members = {id(part) for node in nodes if node.kind == "join" for part in node.parts}
            found |= {node.use.name for node in nodes if node.use and id(node) not in members}
    return found


def is_endless(it: Program, stmt: Stmt, tried: dict[int, Choice]) -> bool:
    """Whether a statement can never end, whatever the values are: a loop `*[S]`, a guarded repetition of which for all
    values some guard is true, or a statement that has to run such a one."""
    if stmt.kind == "call":
        return is_endless(it, it.procs[stmt.name], tried)
    if stmt.kind == "again" and not is_wide(bits_read(it, stmt)) and all(tried[id(stmt)].true):
        return True
    if stmt.kind == "loop":
        return True
    if stmt.kind in ("sequence", "parallel"):
        return any(is_endless(it, child, tried) for child in stmt.children)
    return stmt.kind == "select" and all(is_endless(it, child, tried) for child in stmt.children)


def choices_tried(it: Program, text: Text, folder: str) -> dict[int, Choice]:
    """Of each selection and guarded repetition what its guards are worth, by the statement."""
    both = (stmt for stmt in it.statements() if stmt.kind in ("select", "again"))
    return {id(stmt): choices_of(it, stmt, text.data, folder) for stmt in both}


def unreached(it: Program, text: Text, tried: dict[int, Choice]) -> Iterator[Finding]:
    """Loops that can never be left though something follows them."""
    for stmt in it.statements():
        if stmt.kind != "sequence":
            continue
        for child, after in zip(stmt.children, stmt.children[1:]):
            if is_endless(it, child, tried):
                where = text.place(after.start)
                follows = f"what follows at {where.line}:{where.column}"
                yield child.start, child.end, f"this never ends, so {follows} is never reached"
                break


def ranges(values: list[int]) -> str:
    """Numbers in ascending order, three or more in a row as `a..b`; of many the first ones."""
    parts: list[list[int]] = []
    for value in values:
        if parts and value == parts[-1][-1] + 1:
            parts[-1].append(value)
        else:
            parts.append([value])
    told = [
        str(it[0]) if len(it) == 1 else f"{it[0]}, {it[1]}" if len(it) == 2 else f"{it[0]}..{it[-1]}" for it in parts
    ]
    return ", ".join(told[:6]) + (", .." if len(told) > 6 else "")


def cases(choice: Choice, rows: list[int]) -> str:
    """The values of the variables in some rows of a choice: of one variable all, of several the first ones."""
    if len(choice.names) == 1:
        return f"{choice.names[0]} = {ranges([choice.values[row][0] for row in rows])}"
    some = [
        "(" + ", ".join(f"{name} = {value}" for name, value in zip(choice.names, choice.values[row])) + ")"
        for row in rows[:3]
    ]
    return ", ".join(some) + (f" and {len(rows) - 3} more" if len(rows) > 3 else "")


def wide_choices(it: Program) -> list[Stmt]:
    """The selections whose guards read too many bits to be tried."""
    return [stmt for stmt in it.statements() if stmt.kind in ("select", "again") and is_wide(bits_read(it, stmt))]


def selections(it: Program, tried: dict[int, Choice]) -> Iterator[Finding]:
    """Selections and guarded repetitions for which not exactly one guard is true."""
    for stmt in it.statements():
        if id(stmt) not in tried:
            continue
        choice = tried[id(stmt)]
        none = [row for row, true in enumerate(choice.true) if not true]
        if none and stmt.kind == "select":
            for_some = f"no guard is true for {cases(choice, none)}: it waits for ever then" if choice.names else ""
            yield stmt.start, stmt.end, for_some or "no guard is ever true: it waits for ever"
        several: dict[tuple[int, ...], list[int]] = {}
        for row, true in enumerate(choice.true):
            if len(true) > 1:
                several.setdefault(tuple(true), []).append(row)
        for guards, rows in several.items():
            names = " and ".join(str(guard + 1) for guard in guards)
            which = f" for {cases(choice, rows)}" if choice.names else ""
            yield stmt.start, stmt.end, f"the guards {names} are true at once{which}: it waits for ever then"


def constant_guards(it: Program, tried: dict[int, Choice]) -> Iterator[Finding]:
    """Guards that are true for no values, or for all."""
    for stmt in it.statements():
        choice = tried.get(id(stmt))
        if choice is None or not choice.names:
            continue
        at_ends = " at the ends of its ranges" if is_wide(bits_read(it, stmt)) else ""
        for number, guard in enumerate(stmt.guards):
            count = sum(number in true for true in choice.true)
            if not count:
                yield guard.start, guard.end, f"this guard is never true{at_ends}"
            elif count == len(choice.true) and stmt.kind == "select":
                yield guard.start, guard.end, f"this guard is always true{at_ends}"


def main(words: Sequence[str]) -> int:
    """Runs the command: 0 where nothing was found, else 20."""
    made = Parser("lint", ABOUT)
    made.add_argument("file", metavar="F", help="the program")
    made.add_argument("--json", action="store_true", help="the findings as one JSON object")
    given = made.parse_args(words)
    with Progress(f"lint of {given.file}"):
        program.wanted(["check", given.file])
        text = Text(given.file, options.read(given.file))
        try:
            it = read_program(text.data)
        except Unread as error:
            raise Refusal(
                f"{text.told(error.at)}: chpc accepts this program, but lint can't read it: {error}"
            ) from error
        tried = choices_tried(it, text, options.room())
        found = [*unused(it), *unreached(it, text, tried), *selections(it, tried), *constant_guards(it, tried)]
    if given.json:
        put({"file": given.file, "found": [{**place(text, *it[:2]), "what": it[2]} for it in sorted(found)]})
        return FOUND if found else 0
    paint = Paint(sys.stdout)
    for start, end, what in sorted(found, key=lambda it: it[0]):
        print(f"{paint.bold(text.told(start))}: {what}")
        print("\n".join(text.shown(start, end, paint)))
    print(f"{len(found)} found" if found else "nothing found")
    wide = wide_choices(it)
    if wide:
        places = ", ".join(text.told(stmt.start) for stmt in wide)
        print(f"tried at the ends of their ranges alone, since their guards read more than {MOST_BITS} bits: {places}")
    return FOUND if found else 0
