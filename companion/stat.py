"""`stat`: how large a circuit is, by part and by kind of part."""

from __future__ import annotations

from collections.abc import Iterable, Sequence
from dataclasses import dataclass

from companion.as_json import put
from companion.complementary import needs_keeper
from companion.fit import Fit, circuit_of
from companion.options import Parser
from companion.parts import Tree
from companion.rules import Net, literals_of, series_of
from companion.terminal import Progress

ABOUT = """\
How large the circuit of a program is: nodes, rules and literals, and the longest series, which is
the most literals that one term of a rule has, and so the most transistors one behind the other.
A keeper is wanted by a node whose two guards aren't complementary, so that it holds its value where
neither is true; transistors are counted in the usual way, two for each literal, since it may want
an inverted input, and four for each keeper.
Then by kind of part, where a part's nodes are those that lie in none of its statements; and part by
part, with the place in the source."""

COLUMNS = ("nodes", "rules", "literals", "series", "keepers", "transistors")


@dataclass
class Size:
    """So many nodes, rules and literals, the longest series of a rule, and how many nodes want a keeper."""

    nodes: int = 0
    rules: int = 0
    literals: int = 0
    series: int = 0
    keepers: int = 0
    parts: int = 0

    @property
    def transistors(self) -> int:
        """By the usual count."""
        return 2 * self.literals + 4 * self.keepers

    def add(self, other: Size) -> None:
        """Counts another size to this one, as one part."""
        self.nodes += other.nodes
        self.rules += other.rules
        self.literals += other.literals
        self.series = max(self.series, other.series)
        self.keepers += other.keepers
        self.parts += 1

    def row(self) -> list[str]:
        """Its numbers as cells."""
        counts = (self.nodes, self.rules, self.literals, self.series or "-", self.keepers, self.transistors)
        return [str(it) for it in counts]

    def as_json(self) -> dict[str, int]:
        """Its numbers by their names."""
        names = ("nodes", "rules", "literals", "series", "keepers", "transistors")
        return {name: getattr(self, name) for name in names}


def size_of(net: Net, nodes: Iterable[str]) -> Size:
    """The size of some nodes with their rules."""
    size = Size()
    for node in nodes:
        size.nodes += 1
        for sign in "+-":
            guard = net.rules.get((node, sign))
            if guard is not None:
                size.rules += 1
                size.literals += literals_of(guard)
                size.series = max(size.series, series_of(guard))
        has_rules = (node, "+") in net.rules or (node, "-") in net.rules
        size.keepers += has_rules and needs_keeper(net.terms(node, "+"), net.terms(node, "-"))
    return size


def aligned(rows: list[list[str]], left: int) -> list[str]:
    """Rows of cells in columns; the first `left` columns and what stands behind the numbers begin at their left."""
    count = min(len(row) for row in rows)
    widths = [max(len(row[at]) for row in rows) for at in range(count)]
    lines = []
    for row in rows:
        line = [cell.ljust(wide) if at < left else cell.rjust(wide) for at, (cell, wide) in enumerate(zip(row, widths))]
        lines.append("  ".join([*line, *row[count:]]).rstrip())
    return lines


def by_kind(net: Net, tree: Tree) -> tuple[list[str], list[tuple[str, Size]]]:
    """A table with a line for each kind of part, for channels and for variables; and the size of each block and
    part."""
    names = list(net.first)
    kinds: dict[str, Size] = {}
    sizes: list[tuple[str, Size]] = []
    for block in tree.blocks:
        size = size_of(net, names[block.first : block.first + block.count])
        kinds.setdefault(block.what, Size()).add(size)
        sizes.append((f"{block.what} {block.name}", size))
    for part in tree.walk():
        nodes = [names[number] for stretch in part.own_nodes() for number in stretch]
        size = size_of(net, [*nodes, *(["go", "done"] if part is tree.root else [])])
        kinds.setdefault(part.kind, Size()).add(size)
        sizes.append((f"{part.kind} {part.name}" if part.kind == "procedure" else part.kind, size))
    rows = [["kind", "parts", *COLUMNS]]
    rows += [[kind, str(size.parts), *size.row()] for kind, size in sorted(kinds.items(), key=lambda it: -it[1].nodes)]
    return aligned(rows, 1), sizes


def by_part(tree: Tree, fit: Fit, sizes: list[tuple[str, Size]]) -> list[str]:
    """A line for each block and each part, parents before children."""
    known = fit.program.decls if fit.program and not fit.why else []
    declared = {decl.name: decl for decl in known if decl.start >= 0}
    rows = [[*COLUMNS, "part"]]
    for block, (name, size) in zip(tree.blocks, sizes):
        place = f"  {fit.text.told(declared[block.name].start)}" if block.name in declared else ""
        rows.append([*size.row(), name + place])
    for part, (name, size) in zip(tree.walk(), sizes[len(tree.blocks) :]):
        place, source = fit.place(part), fit.source(part, 50)
        rows.append([*size.row(), "  " * (len(part.path()) - 1) + name + (f"  {place}  {source}" if place else "")])
    return joined(rows)


def parts_as_json(tree: Tree, fit: Fit, sizes: list[tuple[str, Size]]) -> list[dict[str, object]]:
    """Each block and each part with its size, and where its statement stands."""
    rows: list[dict[str, object]] = [{"part": name, **size.as_json()} for name, size in sizes]
    for part, row in zip(tree.walk(), rows[len(tree.blocks) :]):
        row.update(level=len(part.path()) - 1, place=fit.place(part), source=fit.source(part))
    return rows


def joined(rows: list[list[str]]) -> list[str]:
    """The rows with the numbers in columns, and the part behind them."""
    numbers = aligned([row[:-1] for row in rows], 0)
    return [f"{front}  {row[-1]}" for front, row in zip(numbers, rows)]


def main(words: Sequence[str]) -> int:
    """Runs the command."""
    made = Parser("stat", ABOUT)
    made.add_argument("file", metavar="F", help="the program")
    made.buffer()
    made.add_argument("--json", action="store_true", help="the same as one JSON object")
    given = made.parse_args(words)
    with Progress(f"the size of {given.file}"):
        tree, net, fit = circuit_of(given.file, given.buffer)
        whole = size_of(net, net.first)
        kinds, sizes = by_kind(net, tree)
    if given.json:
        put({"file": given.file, **whole.as_json(), "parts": parts_as_json(tree, fit, sizes)})
        return 0
    print(f"nodes {whole.nodes}\nrules {whole.rules}\nliterals {whole.literals}\nlongest series {whole.series}")
    print(f"keepers {whole.keepers}\ntransistors {whole.transistors}\n")
    print("\n".join([*kinds, "", *by_part(tree, fit, sizes)]))
    if fit.why:
        print(f"note: {fit.why}")
    return 0
