"""What is told of a hazard: what it is, whose move did it, and by which moves it came."""

from __future__ import annotations

from companion.rules import Net
from companion.waves import Report, Wave

TURNS = {"0": "falls", "1": "rises"}
ENDED = "the run ends in a hazard; `chpx hunt` tells of it"  # of a run that is looked at for something else
MOST = 3  # moves of the chain of causes that are shown


def in_words(report: Report, values: dict[str, str]) -> str:
    """What kind of hazard a report tells; `values` are those of the nodes at its end."""
    kind, name, at = report.end[0], report.end[1], report.end[3]
    if kind == "both":
        return f"interference: after move {at} both guards of {name} hold, so it is pulled up and down at once"
    if kind == "unstable":
        turn = "fall" if values[name] == "1" else "rise"
        return f"instability: move {at} disables {name}, which was about to {turn}"
    return f"broken phases: move {at} breaks the four phases of the channel {name}"


def rules_of(net: Net, node: str) -> list[str]:
    """The rules of a node as the file has them."""
    found = [f"rule {net.rules[node, sign]} -> {node}{sign}" for sign in "+-" if (node, sign) in net.rules]
    return found or [f"{node} has none: the environment moves it"]


def story(net: Net, report: Report, wave: Wave, chain: list[str]) -> list[str]:
    """The hazard at the end of a run, and its last move with the chain of causes that `chpc waves --causes` tells: the
    last move is the one that did it."""
    lines = [f"hazard: {in_words(report, wave.last())}"]
    moves = chain[:-1]
    if not moves:
        return lines
    time, node, value, *_ = moves[-1].split()
    lines.append(f"whose move did it: {node}, which {TURNS[value]} at time {time}")
    lines.append("how that came, each move the cause of the next (`waves --causes`):")
    if len(moves) > MOST:
        lines.append(f"  .. {len(moves) - MOST} before")
    lines += [f"  {line}" for line in moves[-MOST:]]
    lines.append("the rules:")
    nodes = [node] if report.end[0] == "protocol" else [node, report.end[1]]
    for it in dict.fromkeys(nodes):
        lines += [f"  {rule}" for rule in rules_of(net, it)]
    return lines
