"""`sort`: brings the lines of a rule file into the one order in which chpc reads them."""

from __future__ import annotations

import bisect
import re
import sys
from collections.abc import Sequence
from dataclasses import dataclass, field

from companion import options, program
from companion.labels import called, label
from companion.options import Parser
from companion.parts import Tree, tree_of, width_of
from companion.program import Refusal
from companion.terminal import Progress

ABOUT = """\
Prints a rule file of the same lines in the one order in which chpc reads one. The order of the
nodes is that of their lines, unless the file's names show the layout of a compiled circuit
(channels, variables and numbers, as `n17`): then it is that one. Names alone don't tell in which
order channels, or variables of one width, come; that is the order of their lines, or with --program
that of the program. chpc reads the result before it is printed."""


@dataclass
class Lines:
    """The lines of a rule file by what they are: the version; for each node its first value; the channels' kinds and
    widths by name; and the rules by node and sign."""

    version: str = ""
    nodes: dict[str, str] = field(default_factory=dict)
    channels: dict[str, tuple[str, str]] = field(default_factory=dict)
    rules: dict[tuple[str, str], str] = field(default_factory=dict)


def read_lines(text: str, name: str) -> Lines:
    """Reads the lines in whatever order they are."""
    lines = Lines()
    for number, line in enumerate(text.split("\n"), 1):
        words = line.split()
        is_double = False
        if not words:
            continue
        if words[0] == "prs" and len(words) == 2 and not lines.version:
            lines.version = " ".join(words)
        elif words[0] == "node" and len(words) == 3:
            is_double = words[1] in lines.nodes
            lines.nodes[words[1]] = words[2]
        elif words[0] in ("in", "out", "chan") and len(words) == 3 and words[2].isdigit():
            is_double = words[1] in lines.channels
            lines.channels[words[1]] = (words[0], words[2])
        elif words[0] == "rule" and words[-2:-1] == ["->"] and words[-1][-1] in "+-":
            key = (words[-1][:-1], words[-1][-1])
            is_double = key in lines.rules
            lines.rules[key] = " ".join(words[1:-2])
        else:
            raise Refusal(f"{called(name)}:{number}: this line is none of a rule file", 8)
        if is_double:
            raise Refusal(f"{called(name)}:{number}: there is another line for this", 8)
    if not lines.version:
        raise Refusal(f"{called(name)}: no line tells the version, `prs 1` or `prs 2`", 8)
    return lines


def wires(name: str, width: int) -> list[str]:
    """The wires of a channel, in order."""
    return [*(f"{name}.{bit}.{rail}" for bit in range(width) for rail in "tf"), f"{name}.a"]


def bit_nodes(name: str, width: int) -> list[str]:
    """The nodes of a variable that have names, in order."""
    return [f"{name}.{bit}.{end}" for bit in range(width) for end in ("t", "f", "wt", "wf", "wa")]


def variables(lines: Lines) -> dict[str, int]:
    """The variables in order of their first lines, with their widths."""
    found: dict[str, int] = {}
    for node in lines.nodes:
        it = re.fullmatch(r"([A-Za-z]\w*)\.(\d+)\.wa", node)
        if it:
            found[it[1]] = max(found.get(it[1], 0), int(it[2]) + 1)
    return found


def channel_orders(lines: Lines, tree: Tree | None) -> list[list[str]]:
    """In which order the channels may come: that of the program; or else that of their nodes' lines, and that of their
    own."""
    if tree is not None:
        return [[it.name for it in tree.channels()]]
    places = {name: at for at, name in enumerate(lines.nodes)}
    by_nodes = sorted(lines.channels, key=lambda name: places.get(f"{name}.0.t", len(places)))
    return [by_nodes, list(lines.channels)]


def laid_out(lines: Lines, channels: list[str], left: dict[str, int]) -> list[str]:
    """The nodes in the order of a compiled circuit with these channels and variables, or none where they aren't
    such."""
    order = ["go", "done"]
    for name in channels:
        order += wires(name, int(lines.channels.get(name, ("", "0"))[1]))
    numbered = sorted(int(name[1:]) for name in lines.nodes if re.fullmatch(r"n\d+", name))
    left = dict(left)
    while left:
        name = next_variable(left, len(order), numbered)
        if not name:
            return []
        width = left.pop(name)
        order += bit_nodes(name, width)
        order += [f"n{number}" for number in range(len(order), len(order) + width - 1)]
    rest = len(lines.nodes) - len(order) - (lines.version == "prs 2")
    order += [f"n{number}" for number in range(len(order), len(order) + rest)]
    order += ["reset"] if lines.version == "prs 2" else []
    return order if sorted(order) == sorted(lines.nodes) else []


def next_variable(left: dict[str, int], first: int, numbered: list[int]) -> str:
    """The variable that begins at this number. A variable of w bits has 5w nodes with names and then w - 1 numbered
    ones, its tree; so it is told by how many numbers are free here, and how many are none behind them. Where these
    don't fit together, variables of one bit come first, which have no tree."""
    after = bisect.bisect_left(numbered, first)
    free = numbered[after] - first if after < len(numbered) else 0
    width, last = free // 5, first + free + free // 5 - 2
    has_tree = width > 1 and after + width - 2 < len(numbered) and numbered[after + width - 2] == last
    widths = (width, 1) if free % 5 == 0 and has_tree else (1,)
    return next((name for wanted in widths for name, wide in left.items() if wide == wanted), "")


def as_they_stand(lines: Lines) -> list[str]:
    """The nodes in the order of their lines, with go and done first and, in version 2, reset last."""
    ends = ("go", "done", *(["reset"] if lines.version == "prs 2" else []))
    inner = [name for name in lines.nodes if name not in ends]
    return [*(it for it in ends[:2] if it in lines.nodes), *inner, *(it for it in ends[2:] if it in lines.nodes)]


def order_of(lines: Lines, tree: Tree | None) -> tuple[list[str], list[str]]:
    """The order of the nodes, and that of the channels. Where the nodes' lines are in the order of a compiled circuit
    already, that is it; else it is made of the channels' lines; and where no such order fits, the lines are left as
    they stand."""
    left = variables(lines) if tree is None else {it.name: width_of(it) for it in tree.variables()}
    standing = as_they_stand(lines)
    for channels in channel_orders(lines, tree):
        nodes = laid_out(lines, channels, left)
        if nodes and (tree is not None or nodes == standing or channels == list(lines.channels)):
            return nodes, channels
    if tree is not None:
        raise Refusal("the program's circuit has other nodes than the rule file")
    return standing, list(lines.channels)


def ordered(lines: Lines, tree: Tree | None) -> str:
    """The text of the file in order."""
    nodes, channels = order_of(lines, tree)
    numbers = {name: number for number, name in enumerate(nodes)}
    rules = sorted(lines.rules, key=lambda key: (numbers.get(key[0], len(nodes)), key[1] == "-"))
    made = [lines.version, *(f"node {name} {lines.nodes[name]}" for name in nodes)]
    made += [f"{lines.channels[name][0]} {name} {lines.channels[name][1]}" for name in channels]
    made += [f"rule {lines.rules[key]} -> {key[0]}{key[1]}" for key in rules]
    return "\n".join(made) + "\n"


def open_order(lines: Lines, text: str) -> str:
    """A note where the order of channels or variables isn't told by names, and the nodes weren't in order already."""
    if list(lines.nodes) == re.findall(r"^node (\S+) ", text, re.M):
        return ""
    widths = list(variables(lines).values())
    several = [list(lines.channels)] if len(lines.channels) > 1 else []
    several += [
        [it for it, wide in variables(lines).items() if wide == width]
        for width in set(widths) if widths.count(width) > 1
    ]
    groups = "; ".join(", ".join(names) for names in several)
    note = "note: in which order these come isn't told by names, so it is that of their lines: "
    return note + groups if groups else ""


def main(words: Sequence[str]) -> int:
    """Runs the command."""
    made = Parser("sort", ABOUT)
    made.add_argument("rules", metavar="PRS", help="the rule file")
    made.add_argument(
        "--program", metavar="F", help="the program that it was compiled from, for the order of its names"
    )
    given = made.parse_args(words)
    folder = options.room()
    with Progress(f"the order of {given.rules}"):
        lines = read_lines(options.read(given.rules).decode("latin-1"), given.rules)
        text = ordered(lines, tree_of(given.program) if given.program else None)
        made, script = f"{folder}/sorted.prs", f"{folder}/script"
        options.write(made, text.encode("latin-1"))
        options.write(script, "")
        label(made, f"{called(given.rules)} in order")
        program.wanted(["simulate", made, script, "--steps", "0"])
    sys.stdout.write(text)
    note = "" if given.program else open_order(lines, text)
    if note:
        print(note, file=sys.stderr)
    return 0
