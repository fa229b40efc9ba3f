"""The channels and variables of a rule file."""

from __future__ import annotations

import re

from companion.rules import Net
from companion.vectors import Signal


def signals_of(net: Net) -> list[Signal]:
    """The channels in order, and then the variables: names of which there are rails `x.i.t` and `x.i.f` with the nodes
    `x.i.wt`, `x.i.wf` and `x.i.wa` by which they are written, in order of their first node."""
    found = [Signal("channel", it.name, it.width) for it in net.channels]
    widths: dict[str, int] = {}
    for node in net.first:
        it = re.fullmatch(r"([A-Za-z]\w*)\.(\d+)\.wa", node)
        if it and all(f"{it[1]}.{it[2]}.{end}" in net.first for end in ("t", "f", "wt", "wf")):
            widths[it[1]] = max(widths.get(it[1], 0), int(it[2]) + 1)
    return found + [Signal("variable", name, width) for name, width in widths.items()]
