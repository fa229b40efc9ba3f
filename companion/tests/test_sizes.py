"""`stat` and `tree`."""

from __future__ import annotations

import os
import re
import xml.dom.minidom

from companion.tests.base import TOP, Case


class Sizes(Case):
    """How large a circuit is, and its picture."""

    def test_stat(self) -> None:
        self.example("merge.chp"), self.compiled_text("merge")
        ran = self.chpx("stat", "merge.chp")
        self.assertEqual((ran.status, ran.err), (0, ""))
        rules = [line for line in self.text.split("\n") if line.startswith("rule ")]
        literals = sum(len(re.findall(r"[&|]", line)) + 1 for line in rules)
        nodes = self.text.count("\nnode ")
        self.has(
            ran.out,
            [
                f"nodes {nodes}\nrules {len(rules)}\nliterals {literals}\nlongest series 5\n",
                "kind ",
                "part\n",
                "merge.chp:9:20  A?x\n",
            ],
        )
        self.sums(ran.out)

    def test_stat_of_calls(self) -> None:
        self.example("lanes.chp"), self.compiled_text("lanes")
        ran = self.chpx("stat", "lanes.chp")
        self.has(ran.out, ["nodes 265\nrules 492\n", "procedure up\n", "call  lanes.chp:15:37  call up\n"])
        self.sums(ran.out)

    def sums(self, told: str) -> None:
        """The sizes add up to those of the rule file."""
        rules = [line for line in self.text.split("\n") if line.startswith("rule ")]
        literals = sum(len(re.findall(r"[&|]", line)) + 1 for line in rules)
        nodes = self.text.count("\nnode ")
        kinds, parts = told.split("\n\n")[1:]
        rows = [line.split() for line in kinds.splitlines()[1:]]
        self.assertEqual([sum(int(row[at]) for row in rows) for at in (2, 3, 4)], [nodes, len(rules), literals])
        columns = [line.split() for line in parts.splitlines()[1:]]
        self.assertEqual([sum(int(row[at]) for row in columns) for at in (0, 1, 2)], [nodes, len(rules), literals])

    def compiled_text(self, name: str) -> None:
        """The text of the rule file."""
        with open(self.compiled(name), encoding="ascii") as file:
            self.text = file.read()

    def test_skip(self) -> None:
        self.has(
            self.chpx("stat", self.example("skip.chp")).out,
            ["nodes 5\nrules 8\nliterals 10\nlongest series 2\n", "root", "skip  skip.chp:2:7  skip\n"],
        )

    def test_tree(self) -> None:
        ran = self.chpx("tree", self.example("fifo4.chp"))
        self.assertEqual((ran.status, ran.err), (0, ""))
        xml.dom.minidom.parseString(ran.out)
        self.has(ran.out, ["in L : 8, 17 nodes from 2", "chan a : 8", "var w : 8"])
        for text in ("root", "parallel", "L?w", "a!w", "c?z", "R!z"):
            self.assertIn(f">{text}</text>", ran.out)
        self.assertEqual(ran.out.count("<rect"), 1 + 1 + 1 + 4 * 4)

    def test_picture(self) -> None:
        """The picture of docs/TEMPLATES.md is what comes."""
        with open(os.path.join(TOP, "docs", "tree.svg"), encoding="utf-8") as file:
            self.assertEqual(self.chpx("tree", self.example("pipeline.chp")).out, file.read())

    def test_refused(self) -> None:
        for command in ("stat", "tree", "lint"):
            ran = self.chpx(command, self.write("f.chp", "begin skip; end"))
            self.assertEqual((ran.status, ran.out), (1, ""))
            self.has(ran.err, ["chp: 11 Syntax at 12..15\n", "f.chp:1:13: Syntax"])
