"""`tree`: the parts of a circuit as a picture."""

from __future__ import annotations

from collections.abc import Sequence
from xml.sax.saxutils import escape

from companion.fit import Fit, circuit_of, name_of
from companion.options import Parser
from companion.parts import Part, Tree, width_of
from companion.rules import Net
from companion.terminal import Progress

ABOUT = """\
Draws the parts of a program's circuit, an SVG on standard output: a box for each statement with its
text, the node that asks it and the one by which it answers; its statements to the right of it; and
for each channel inside of the program a line that joins its sends and receives."""
ROW, WIDE, GAP, HIGH, EDGE = 40, 250, 40, 30, 20
COLOURS = {
    "send": "#dcecff",
    "receive": "#dff5e1",
    "select": "#fff3d6",
    "again": "#fff3d6",
    "assign": "#f3e6fa",
    "through": "#f3e6fa",
}
LINES = ("#1f6fb2", "#b2491f", "#2c8a3d", "#7a3fa0", "#a0892c", "#2c9a9a")


class Drawing:
    """Lays the boxes out: a column for each level, a row for each part without children."""

    def __init__(self, tree: Tree, fit: Fit, net: Net) -> None:
        self.tree = tree
        self.fit = fit
        self.net = net
        self.places: dict[Part, tuple[int, float]] = {}
        self.ends: dict[str, list[Part]] = {}  # by channel the sends and receives on it
        for part in tree.walk():
            if part.kind in ("send", "receive"):
                self.ends.setdefault(name_of(part, tree, net), []).append(part)
        self.rows = 0
        for part in (*tree.procs, tree.root):
            self.lay(part, 0)
        self.depth = max(column for column, _ in self.places.values()) + 1

    def lay(self, part: Part, column: int) -> float:
        """Finds the place of a part and of all in it, and tells its row: the middle of its children's."""
        if part.children:
            rows = [self.lay(child, column + 1) for child in part.children]
            row = (rows[0] + rows[-1]) / 2
        else:
            row = float(self.rows)
            self.rows += 1
        self.places[part] = (column, row)
        return row

    def corner(self, part: Part) -> tuple[float, float]:
        """The upper left corner of a part's box."""
        column, row = self.places[part]
        return EDGE + column * (WIDE + GAP), EDGE + self.head() + row * ROW

    def head(self) -> int:
        """How high the list of channels and variables is."""
        return 18 * (1 + len(self.tree.blocks)) + 12

    def blocks(self) -> list[str]:
        """The list of channels and variables."""
        lines = [f'<text x="{EDGE}" y="{EDGE + 4}" font-weight="bold">channels and variables</text>']
        kinds = {it.name: it.kind for it in self.net.channels}
        for number, block in enumerate(self.tree.blocks, 1):
            kind = kinds.get(block.name, "var") if block.what == "channel" else "var"
            text = f"{kind} {block.name} : {width_of(block)}, {block.count} nodes from {block.first}"
            lines.append(f'<text x="{EDGE}" y="{EDGE + 4 + 18 * number}">{escape(text)}</text>')
        return lines

    def title(self, part: Part) -> str:
        """What stands in a box: the kind with the text, or without a place the kind with the name that the rules
        tell."""
        if part.kind in ("send", "receive", "assign", "through") and self.fit.place(part):
            return self.fit.source(part, 34)
        if part.kind in ("select", "again") and part in self.fit.statements:
            guards = self.fit.statements[part].guards
            return f"{part.kind} of {len(guards)}: {self.fit.cut(guards[0].start, guards[0].end, 16)} .."
        return f"{part.kind} {part.name or name_of(part, self.tree, self.net)}".strip()

    def box(self, part: Part) -> list[str]:
        """A part's box, and the line to its parent."""
        x, y = self.corner(part)
        lines = []
        if part.parent is not None:
            left, top = self.corner(part.parent)
            start, middle, end = (left + WIDE, top + HIGH / 2), left + WIDE + GAP / 2, y + HIGH / 2
            lines.append(
                f'<path d="M{start[0]:g} {start[1]:g} H{middle:g} V{end:g} H{x:g}" fill="none" stroke="#888"/>'
            )
        place = self.fit.place(part)
        small = f"{part.request} → {part.answer}, {part.count} nodes"
        small += f", {':'.join(place.rsplit(':', 2)[1:]) or place}" if place else ""
        style = f'rx="4" fill="{COLOURS.get(part.kind, "#f4f4f4")}" stroke="#444"'
        lines += [
            f'<rect x="{x:g}" y="{y:g}" width="{WIDE}" height="{HIGH}" {style}/>',
            f'<text x="{x + 6:g}" y="{y + 12:g}">{escape(self.title(part))}</text>',
            f'<text x="{x + 6:g}" y="{y + 25:g}" font-size="9" fill="#555">{escape(small)}</text>',
        ]
        return lines

    def joints(self) -> list[str]:
        """The lines that join the sends and receives of each internal channel, right of all boxes."""
        lines = []
        channels = [it.name for it in self.net.channels if it.kind == "chan"]
        for number, name in enumerate(channels):
            ends = self.ends.get(name, [])
            if not ends:
                continue
            colour = LINES[number % len(LINES)]
            x = EDGE + self.depth * (WIDE + GAP) + 14 * number
            heights = [self.corner(it)[1] + HIGH / 2 for it in ends]
            lines.append(f'<path d="M{x:g} {min(heights):g} V{max(heights):g}" stroke="{colour}" stroke-width="2"/>')
            for part, y in zip(ends, heights):
                right = self.corner(part)[0] + WIDE
                lines.append(f'<path d="M{right:g} {y:g} H{x:g}" stroke="{colour}" stroke-dasharray="3 3"/>')
            lines.append(f'<text x="{x + 3:g}" y="{min(heights) - 4:g}" fill="{colour}">{escape(name)}</text>')
        return lines

    def svg(self) -> str:
        """The picture."""
        inner = len([it for it in self.net.channels if it.kind == "chan"])
        wide = 2 * EDGE + self.depth * (WIDE + GAP) + 14 * inner + 180 * bool(inner)
        high = 2 * EDGE + self.head() + self.rows * ROW
        lines = [f'<svg xmlns="http://www.w3.org/2000/svg" width="{wide}" height="{high}" viewBox="0 0 {wide} {high}">']
        lines += [
            f'<rect width="{wide}" height="{high}" fill="white"/>',
            '<g font-family="monospace" font-size="11" fill="black">',
        ]
        lines += self.joints() + self.blocks()
        for part in self.tree.walk():
            lines += self.box(part)
        return "\n".join([*lines, "</g>", "</svg>"]) + "\n"


def main(words: Sequence[str]) -> int:
    """Runs the command."""
    made = Parser("tree", ABOUT)
    made.add_argument("file", metavar="F", help="the program")
    made.buffer()
    given = made.parse_args(words)
    with Progress(f"the parts of {given.file}"):
        tree, net, fit = circuit_of(given.file, given.buffer)
        drawing = Drawing(tree, fit, net)
    print(drawing.svg(), end="")
    return 0
