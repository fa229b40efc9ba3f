"""Places in the source: the text as the companion reads it, beside the parts that chpc tells."""

from __future__ import annotations

import glob
import os
from unittest import mock

from companion import fit, parts, program
from companion.chp_reader import read_program
from companion.chp_tokens import Unread
from companion.rules import net_in
from companion.tests import recorded
from companion.tests.base import EXAMPLES, Case


class Fits(Case):
    """Whether they fit, and that no place is told where they don't."""

    def fitted(self, name: str, text: str = "") -> fit.Fit:
        """The fit of a program's parts with its own text, or with another one."""
        tree = parts.read_tree(recorded.answer(["expand", f"{name}.chp"]).text())
        with open(f"{name}.chp", "rb") as file:
            return fit.fitted(text.encode() or file.read(), f"{name}.chp", tree, net_in(self.compiled(name)))

    def test_examples(self) -> None:
        """Those with procedures too, whose calls share a body."""
        for path in sorted(glob.glob(os.path.join(EXAMPLES, "*.chp"))):
            name = self.example(os.path.basename(path))
            with self.subTest(name), mock.patch.object(program, "answer", recorded.answer):
                tree, net, it = fit.circuit_of(name)
                self.assertEqual((it.why, tree.count()), ("", len(net.first)))
                told = [part for part in tree.walk() if part.kind not in ("root", "procedure")]
                self.assertEqual(set(it.statements), set(told))
                for part, statement in it.statements.items():
                    halved = ("sequence", "assign") if part.path()[0].kind == "procedure" else ()
                    self.assertIn(part.kind, (statement.kind, *(halved if statement.kind == "through" else ())))

    def test_calls(self) -> None:
        """Where the parts of a circuit begin in which calls share a body, of one program by hand."""
        text = "var x : 1; proc p = x := ~x; proc q = (skip, skip);\nbegin call p; (call q); call p end"
        name = self.write("f.chp", text)
        with mock.patch.object(program, "answer", recorded.answer):
            tree, _, it = fit.circuit_of(name)
        self.assertEqual([(block.name, block.first) for block in tree.blocks], [("x", 2), ("h0", 7)])
        self.assertEqual(
            [(part.kind, part.name, part.request, part.answer, part.first, part.count) for part in tree.walk()], [
                ("procedure", "p", "n12", "n19", 12, 10),
                ("sequence", "", "n12", "n19", 13, 9),
                ("assign", "", "n13", "n16", 16, 3),
                ("assign", "", "n15", "n19", 19, 3),
                ("procedure", "q", "n22", "n31", 22, 10),
                ("parallel", "", "n22", "n31", 23, 9),
                ("skip", "", "n23", "n26", 26, 1),
                ("skip", "", "n27", "n30", 30, 1),
                ("root", "", "go", "done", 32, 11),
                ("sequence", "", "n32", "n42", 34, 9),
                ("call", "p", "n34", "n37", 37, 1),
                ("call", "q", "n38", "n41", 41, 1),
                ("call", "p", "n40", "n42", 42, 1),
            ]
        )
        self.assertEqual([it.source(part) for part in tree.root.children[0].children], ["call p", "call q", "call p"])

    def test_brackets(self) -> None:
        self.write(
            "f.chp",
            "var x : 1; var y : 1; begin ((skip); (skip, (x := 1; x := ~x))) || (skip); [y -> (skip)]; *[(skip)] end",
        )
        self.assertEqual(self.fitted("f").why, "")

    def test_other_texts(self) -> None:
        self.write("f.chp", "chan X : 1; chan Y : 1; var v : 1; var w : 1; begin X!1 || X?v; Y!1 || Y?w end")
        for text in (
            "chan X : 1; chan Y : 1; var v : 1; var w : 1; begin X!1 || X?v; Y!1 end",
            "chan X : 1; chan Y : 1; var v : 1; var w : 1; begin Y!1 || X?v; Y!1 || Y?w end",
            "chan X : 1; chan Y : 1; var v : 1; var w : 1; begin X!1 || call p; Y!1 || Y?w end",
            "begin X!1 ?? end",
        ):
            with self.subTest(text):
                it = self.fitted("f", text)
                self.assertEqual(it.statements, {})
                self.assertIn("don't fit", it.why)

    def test_new_kind_of_part(self) -> None:
        """A part that isn't known is told, without places."""
        tree = parts.read_tree("root go done 2 4\n  call n2 n5 4 2 \n")
        it = fit.fitted(b"proc p = skip; begin call p end", "f.chp", tree, None)
        self.assertEqual((it.why, it.place(tree.root.children[0])), ("", "f.chp:1:22"))
        tree = parts.read_tree("root go done 2 4\n  sharing n2 n5 4 2 \n")
        self.assertIn("don't fit", fit.fitted(b"proc p = skip; begin call p end", "f.chp", tree, None).why)

    def test_reader(self) -> None:
        for text in (
            "begin",
            "begin skip",
            "begin [x end",
            "begin x end",
            "var x; begin skip end",
            "begin 'a' end",
            "begin *[ end",
        ):
            with self.subTest(text):
                self.assertRaises(Unread, read_program, text.encode())
