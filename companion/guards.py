"""What the guards of a selection are worth for all values that they read: `chpc run` tells it, by a program that is
made of the guards, which receives the values of the variables and sends what each guard is worth."""

from __future__ import annotations

import itertools
from collections.abc import Iterator
from dataclasses import dataclass, field

from companion import options, program
from companion.chp_tree import Program, Stmt
from companion.waves import read_report

MOST_BITS = 12
MOST_VALUES = 65_536  # a script sends no more
MOST_ROWS = 2_048  # of values at the ends of ranges


@dataclass
class Choice:
    """The guards of a selection: the variables that they read; and, row by row of values, the values of these variables
    and the numbers of the guards that are true, from 0."""

    names: list[str]
    values: list[tuple[int, ...]] = field(default_factory=list)
    true: list[list[int]] = field(default_factory=list)


def bits_read(it: Program, stmt: Stmt) -> dict[str, list[int]]:
    """For each variable that the guards read the bits that they read of it, in ascending order."""
    widths = {name: decl.width for name, decl in it.of_kind("var").items()}
    found: dict[str, set[int]] = {}
    for guard in stmt.guards:
        for use in guard.uses:
            high, low = (widths[use.name] - 1, 0) if use.high < 0 else (use.high, use.low)
            found.setdefault(use.name, set()).update(range(low, high + 1))
    return {name: sorted(places) for name, places in found.items()}


def is_wide(places: dict[str, list[int]]) -> bool:
    """Whether these are too many bits to be tried."""
    bits = sum(map(len, places.values()))
    return bits > MOST_BITS or len(places) << bits > MOST_VALUES


def rows(places: dict[str, list[int]]) -> Iterator[tuple[int, ...]]:
    """All values of these bits, all other bits 0, those of the first variable fastest."""
    total = sum(map(len, places.values()))
    for number in range(1 << total):
        row = []
        for spots in places.values():
            row.append(sum((number >> at & 1) << place for at, place in enumerate(spots)))
            number >>= len(spots)
        yield tuple(row)


def ends(it: Program, stmt: Stmt) -> dict[str, list[int]]:
    """For each variable that the guards read the values at which its ranges end: the least and the greatest ones, and
    those next to the numbers in the guards."""
    numbers = {node.value for guard in stmt.guards for node in guard.tree.walk() if node.kind == "number"}
    widths = {name: decl.width for name, decl in it.of_kind("var").items()}
    found = {}
    for name in bits_read(it, stmt):
        most = (1 << widths[name]) - 1
        near = {0, 1, most - 1, most, *(number + by for number in numbers for by in (-1, 0, 1))}
        found[name] = sorted(value for value in near if 0 <= value <= most)
    return found


def rows_at_ends(it: Program, stmt: Stmt) -> list[tuple[int, ...]]:
    """All values of the variables at the ends of their ranges, or some of these where they are too many."""
    return list(itertools.islice(itertools.product(*ends(it, stmt).values()), MOST_ROWS))


def fresh(letter: str, count: int, taken: set[str]) -> list[str]:
    """So many names that aren't taken."""
    names, at = [], 0
    while len(names) < count:
        if f"{letter}{at}" not in taken:
            names.append(f"{letter}{at}")
        at += 1
    return names


def asking(it: Program, stmt: Stmt, data: bytes, names: list[str]) -> tuple[str, list[str], list[str]]:
    """The program that asks, and its channels: those of the variables and those of the guards."""
    taken = {decl.name for decl in it.decls}
    widths = {name: decl.width for name, decl in it.of_kind("var").items()}
    ins, outs = fresh("i", max(1, len(names)), taken), fresh("o", len(stmt.guards), taken)
    none = fresh("v", 1, taken)[0]
    lines = [f"in {channel} : {widths[name]};\nvar {name} : {widths[name]};" for channel, name in zip(ins, names)]
    if not names:
        lines.append(f"in {ins[0]} : 1;\nvar {none} : 1;")
    lines += [f"out {channel} : 1;" for channel in outs]
    receives = ", ".join(f"{channel}?{name}" for channel, name in zip(ins, names or [none]))
    texts = [data[guard.start : guard.end].decode("latin-1") for guard in stmt.guards]
    sends = ",\n".join(f"{channel}!({text}\n)" for channel, text in zip(outs, texts))
    lines.append(f"begin *[{receives};\n{sends}] end")
    return "\n".join(lines) + "\n", ins, outs


def choices_of(it: Program, stmt: Stmt, data: bytes, folder: str) -> Choice:
    """What the guards are worth, for all values of the bits that they read, or at the ends of their ranges where these
    are too many bits."""
    places = bits_read(it, stmt)
    choice = Choice(list(places))
    choice.values = rows_at_ends(it, stmt) if is_wide(places) else list(rows(places))
    text, ins, outs = asking(it, stmt, data, choice.names)
    columns = list(zip(*choice.values)) if places else [(0,)]
    script = "".join(f"{channel}: {' '.join(map(str, column))}\n" for channel, column in zip(ins, columns))
    options.write(f"{folder}/guards.chp", text)
    options.write(f"{folder}/guards.script", script)
    rounds = str(40 * len(choice.values) + 40)
    answer = program.wanted(["run", f"{folder}/guards.chp", f"{folder}/guards.script", "--rounds", rounds])
    passed = read_rounds(answer.text())
    for row in range(len(choice.values)):
        choice.true.append([at for at, channel in enumerate(outs) if passed[channel][row]])
    return choice


def read_rounds(text: str) -> dict[str, list[int]]:
    """The values that passed, by channel, of a report of rounds."""
    return read_report(text.replace("rounds ", "moves ", 1)).passed
