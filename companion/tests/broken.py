"""Broken rule files: those of a FIFO, each with one literal dropped."""

from __future__ import annotations

import random


def spots(lines: list[str]) -> list[tuple[int, int, int]]:
    """Where a literal can be dropped so that its term has others: line, term and literal."""
    found = []
    for line, text in enumerate(lines):
        guard = text.removeprefix("rule ").rpartition(" -> ")[0] if text.startswith("rule ") else ""
        for term, literals in enumerate(guard.split(" | ")):
            count = literals.count(" & ") + 1
            found += [(line, term, literal) for literal in range(count) if count > 1]
    return found


def without(lines: list[str], line: int, term: int, literal: int) -> str:
    """The text of the rule file without that literal."""
    guard, _, turned = lines[line].removeprefix("rule ").rpartition(" -> ")
    terms = [it.split(" & ") for it in guard.split(" | ")]
    del terms[term][literal]
    made = f"rule {' | '.join(' & '.join(it) for it in terms)} -> {turned}"
    return "\n".join([*lines[:line], made, *lines[line + 1 :]])


def broken_files(text: str, count: int, seed: int) -> list[str]:
    """So many of them, all different, as the seed draws them."""
    lines = text.split("\n")
    return [without(lines, *spot) for spot in random.Random(seed).sample(spots(lines), count)]
