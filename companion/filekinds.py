"""Which kind of file some bytes are, by how they begin."""

from __future__ import annotations

import re
from collections.abc import Sequence

from companion.chp_tokens import KEYWORDS
from companion.forms import DELAYS, PROGRAM, RULES, SCRIPT, WAVE

# for a file of one kind where another is wanted what to do
WAYS = {
    (PROGRAM, RULES): "compile it first: `chpx compile FILE > FILE.prs`",
    (RULES, PROGRAM): "give the program (.chp) of which this rule file was compiled",
    (PROGRAM, SCRIPT): "a script has lines `L: 3 15` for `in` channels; the program comes first, or behind --against",
    (RULES, SCRIPT): "the rule file comes first and the script second",
    (SCRIPT, RULES): "the rule file comes first and the script second",
    (SCRIPT, PROGRAM): "the program comes first and the script second",
    (DELAYS, SCRIPT): "a delay file comes behind --delays",
    (SCRIPT, DELAYS): "a delay file has lines `NODE UP DOWN`; the script comes second, without an option",
    (RULES, WAVE): "a wave is what `chpx waves` writes",
    (WAVE, RULES): "`chpx unwave` reads waves",
}


def kind_of(data: bytes) -> str:
    """The kind of file that the first line with words says, or nothing."""
    lines = [line.split(b"//")[0].strip() for line in data.split(b"\n", 200)[:200]]
    first = next((line for line in lines if line), b"").decode("latin-1")
    if re.match(r"prs [0-9]", first):
        return RULES
    if first.startswith(("$timescale", "$date", "$version", "$scope", "$var")):
        return WAVE
    if re.match(r"[A-Za-z]\w*\s*:(?!=)", first):
        return SCRIPT
    if re.match(r"([A-Za-z]\w*\.[\w.]*|n\d+|go|done) +\d+ +\d+$", first):
        return DELAYS
    words = re.findall(r"\w+", first)
    return PROGRAM if words and words[0] in KEYWORDS else ""


def other_than(data: bytes, role: str) -> str:
    """The kind of file that this is, where it is plainly not of the one that is wanted; else nothing."""
    kind = kind_of(data)
    return kind if kind != role else ""


def looked_at(words: Sequence[str]) -> list[tuple[str, str, int]]:
    """The files among some words, each with the kind of file that it looks like: what is taken for their roles where
    the forms of commands aren't known. One that looks like none is taken for a program where it is the only one."""
    found = []
    for at, word in enumerate(words, 1):
        try:
            with open(word, "rb") as file:
                found.append((word, kind_of(file.read()), at))
        except OSError:
            continue
    return [(word, kind or PROGRAM, at) for word, kind, at in found if kind or len(found) == 1]
