"""`link`: several programs as one, and the places of their texts."""

from __future__ import annotations

import os
import shutil
import subprocess

from companion import marks
from companion.tests.base import EXAMPLES, Case

FED = """\
// made by chpx link source.chp fifo1.chp sink.chp
//#line 2:1 "source.chp"
chan L : 8;
var n : 8;
//#line 3:1 "fifo1.chp"
chan R : 8;
var x : 8;
//#line 3:1 "sink.chp"
var r : 8;
//#end
begin (
//#line 5:3 "source.chp"
  *[n < 10 -> L!n; n := n + 1]
//#end
) || (
//#line 6:3 "fifo1.chp"
  *[L?x; R!x]
//#end
) || (
//#line 5:3 "sink.chp"
  *[R?r]
//#end
) end
"""


class Link(Case):
    """The text that is made, and what is told of it."""

    def test_text(self) -> None:
        ran = self.chpx("link", *(self.example(f"{name}.chp") for name in ("source", "fifo1", "sink")))
        self.assertEqual((ran.status, ran.err, ran.out), (0, "", FED))
        self.write("f.test", "program fed.chp\nL = 0 1 2 3 4 5 6 7 8 9\nR = 0 1 2 3 4 5 6 7 8 9\nnot done\n")
        self.write("fed.chp", ran.out)
        self.assertEqual(self.chpx("test", "f.test").status, 0)

    def test_names(self) -> None:
        """Names that both have get that of the file, or a number."""
        body = "proc p = v := 1; proc q = (call_it!v); begin call p; X?v; call q end"
        self.write("2b.chp", f"in X : 1; out call_it : 1; var c : 1; var v : 1;\n{body}")
        self.write("a.chp", "out X : 1; chan c : 1; var v : 1; var w : 1;\n"
                            "proc p = (X!v; c!v);\nbegin call p || c?w end")
        self.example("one.chp")
        ran = self.chpx("link", "a.chp", "2b.chp")
        self.assertEqual((ran.status, ran.err), (0, ""))
        self.has(ran.out, ["chan X : 1;", "chan a_c : 1;", "var a_v : 1;", "proc a_p = (X!a_v; a_c!a_v);"])
        self.has(ran.out, ["out call_it : 1;", "var c_2 : 1;", "proc p_2 = v_2 := 1;", "call p_2; X?v_2"])

    def test_places(self) -> None:
        """Messages and `why` tell places in the files, also behind declarations on the same line."""
        self.write("a.chp", "out M : 8; var x : 8;\nbegin M!x end\n")
        self.write("b.chp", "in M : 8; out R : 8; var x : 8; begin M?x;  R!x + 1 end")
        self.write("it.chp", self.chpx("link", "a.chp", "b.chp").out)
        self.compiled("it")
        ran = self.chpx("why", "it.prs", self.write("s", "R: 0\n"), "--program", "it.chp")
        self.has(ran.out, ["b.chp:1:45: R!b_x + 1\n"])
        with open("it.chp", encoding="ascii") as file:
            text = file.read()
        self.write("it.chp", text.replace("R!b_x + 1", "R!b_y + 1"))
        ran = self.chpx("check", "it.chp")
        self.has(ran.err, ["b.chp:1:47: Undeclared", "R!x + 1 end\n", "      | " + " " * 46 + "^\n"])
        os.remove("b.chp")
        marks.lines_of.cache_clear()
        self.has(self.chpx("check", "it.chp").err, ["b.chp:1 (it.chp:", ": Undeclared"])

    def test_refused(self) -> None:
        for other, why in (
            ("out L : 8; begin L!1 end", "b.chp:1:5: L can't be linked with a.chp:1:5: it is `out` in both"),
            ("in L : 4; var x : 4; begin L?x end", "b.chp:1:4: L has 4 bits here, and 8 at a.chp:1:5"),
        ):
            self.write("a.chp", "out L : 8; begin L!2 end"), self.write("b.chp", other)
            ran = self.chpx("link", "a.chp", "b.chp")
            self.assertEqual((ran.status, ran.out), (1, ""))
            self.has(ran.err, [f"chpx: {why}"])
        self.write("b.chp", "in L : 8; begin L?x end")
        ran = self.chpx("link", "a.chp", "b.chp")
        self.assertEqual((ran.status, ran.out), (1, ""))
        self.has(ran.err, ["chp: 21 Undeclared", "b.chp:1:19: Undeclared"])
        self.assertEqual(self.chpx("link", "a.chp", "none.chp").status, 3)
        self.assertEqual(self.chpx("link", "--line", "a.chp", "b.chp").status, 2)

    def test_lines(self) -> None:
        """Lines of m4 become marks, and places are lines of its source."""
        self.write("it", '#line 3 "it.m4"\nvar x : 1;\n#line 7\nbegin x := 2 end\n')
        ran = self.chpx("link", "--line", "it")
        self.assertEqual(ran.out, '//#line 3 "it.m4"\nvar x : 1;\n//#line 7 "it.m4"\nbegin x := 2 end\n')
        ran = self.chpx("check", self.write("it.chp", ran.out))
        self.has(ran.err, ["it.m4:7 (it.chp:4:12): ConstantTooWide", "    4 | begin x := 2 end\n"])

    def test_memory(self) -> None:
        """The memory of the examples is what m4 makes of its source."""
        if not shutil.which("m4"):
            self.skipTest("m4 isn't installed")
        made = subprocess.run(["m4", "-s", "memory.m4"], cwd=EXAMPLES, stdout=subprocess.PIPE, check=True).stdout
        self.example("memory.chp")
        with open("memory.chp", encoding="ascii") as file:
            self.assertEqual(self.chpx("link", "--line", self.write("raw", made)).out, file.read())
