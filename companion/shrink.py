"""The shortest delay file that shows a hazard."""

from __future__ import annotations

from collections.abc import Callable


def fewest(lines: list[str], shows: Callable[[str], bool]) -> list[str]:
    """Takes lines away as long as the rest shows the hazard: first halves, then smaller pieces, at last line by line.
    The lines that are given show it."""
    if shows(""):
        return []
    size = max(1, len(lines) // 2)
    while True:
        at, is_shorter = 0, False
        while at < len(lines):
            rest = lines[:at] + lines[at + size :]
            if rest and shows("".join(rest)):
                lines, is_shorter = rest, True
            else:
                at += size
        if size == 1 and not is_shorter:
            return lines
        size = max(1, size // 2) if not is_shorter or size > 1 else 1


def least(line: str, others: list[str], shows: Callable[[str], bool]) -> str:
    """Brings the two numbers of a line to 1 where that still shows the hazard, and else nearer to it."""
    name, *numbers = line.split()
    for at in (0, 1):
        given = int(numbers[at])
        tries = [1, *(step for step in (2, 3, 5, 10, 20, 50, 100, 200, 500) if step < given)] if given != 1 else []
        for number in tries:
            kept = numbers[at]
            numbers[at] = str(number)
            if shows("".join([*others, f"{name} {numbers[0]} {numbers[1]}\n"])):
                break
            numbers[at] = kept
    return f"{name} {numbers[0]} {numbers[1]}\n"


def shortest(text: str, shows: Callable[[str], bool]) -> str:
    """A delay file that shows a hazard, made as short as can be: without each of its lines it shows none, and its
    numbers are small."""
    lines = fewest(text.splitlines(keepends=True), shows)
    for at, line in enumerate(lines):
        lines[at] = least(line, lines[:at] + lines[at + 1 :], shows)
    return "".join(lines)
