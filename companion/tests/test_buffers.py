"""Circuits with a buffer: `buffered`, and the commands that take such circuits."""

from __future__ import annotations

import json

from companion.chp_reader import read_program
from companion.tests import recorded
from companion.tests.base import Case
from companion.tests.programs import FIFO, FIFO_SCRIPT, RING

# calls at two places, an assignment that reads its own target, and names that are taken
CALLS = """in A : 4; chan X : 4; out R : 4; // B0 and h0 are taken
chan B0 : 4; var b1 : 1; var h0 : 4;
var x : 4; var y : 4;
proc up = (x := x + 1; // one more
  X?y; R!{y[1:0], x[1:0]}); proc one = X?x;
proc go = B0!5;
begin *[A?x; call up; call one; call up] || *[X!3; X!4] // both
  || *[B0?h0; skip] || call go end"""
PLAIN = "chan X : 1; var v : 1; begin X!1 || (X?v; skip) end"


class Buffered(Case):
    """The text with a buffer."""

    def printed(self, text: str, channel: str) -> str:
        """What `buffered` prints, whose rule file is that of `compile --buffer`."""
        self.write("f.chp", text)
        ran = self.chpx("buffered", "f.chp", channel)
        self.assertEqual((ran.status, ran.err), (0, ""))
        wanted = recorded.answer(["compile", "f.chp", f"--buffer={channel}"])
        got = recorded.answer(["compile", self.write("g.chp", ran.out)])
        self.assertEqual((got.status, got.out == wanted.out), (0, True))
        return ran.out

    def test_examples(self) -> None:
        for name in ("adder", "fifo4", "pipeline"):
            with open(self.example(f"{name}.chp"), encoding="utf-8") as file:
                text = file.read()
            for channel in read_program(text.encode()).of_kind("chan"):
                self.printed(text, channel)

    def test_text(self) -> None:
        self.assertEqual(
            self.printed(PLAIN, "X"),
            "chan X : 1; var v : 1; \nchan B0 : 1;\nvar b0 : 1;\n"
            "begin (X!1 || (B0?v; skip))\n  || *[X?b0; B0!b0] end",
        )
        with open(self.example("pipeline.chp"), encoding="utf-8") as file:
            text = file.read()
        self.has(self.printed(text, "M"), [
            "var y : 8;\nchan B0 : 8;\nvar b0 : 8;\nbegin\n  (*[L?x; M!x + 1]\n  || *[B0?y; R!y + y])\n",
            "  || *[M?b0; B0!b0]\nend\n",
        ])

    def test_calls(self) -> None:
        """Calls are copies, each assignment that reads its own target has its variable, and taken names are left."""
        printed = self.printed(CALLS, "X")
        self.has(printed, ["var h1 : 4;\nchan B2 : 4;\nvar b2 : 4;\nbegin", "(h1 := x + 1; x := h1); // one more\n"])
        self.assertNotIn("proc", printed)
        self.printed(CALLS, "B0")
        self.printed(RING, "p")
        self.printed(printed, "B2")

    def test_refused(self) -> None:
        self.write("f.chp", PLAIN)
        ran = self.chpx("buffered", "f.chp", "Y")
        self.assertEqual((ran.status, ran.out), (16, ""))
        ran = self.chpx("buffered", self.write("g.chp", "begin skip; end"), "X")
        self.assertEqual((ran.status, ran.out), (1, ""))
        self.has(ran.err, ["chp: 11 Syntax at 12..15\n", "g.chp:1:13: Syntax"])
        self.assertEqual(self.chpx("buffered", "f.chp").status, 2)


class Circuits(Case):
    """What is told of circuits with a buffer."""

    def circuit(self, text: str, script: str, channel: str, *more: str) -> None:
        """Writes program, script and rule file."""
        self.write("f.chp", text), self.write("f.script", script)
        self.compiled("f", f"--buffer={channel}", *more)

    def test_deadlock(self) -> None:
        """A buffer takes the deadlock of the ring away."""
        self.circuit(RING, "R: 2\n", "p", "--reset")
        ran = self.chpx("why", "f.prs", "f.script", "--program", "f.chp", "--buffer", "p")
        self.assertEqual((ran.status, ran.err), (0, ""))
        self.has(ran.out, ["under way\n", "variables\n", "  b0 = ", "no deadlock"])
        self.assertNotIn("note", ran.out)

    def test_why(self) -> None:
        """The buffer's own statements are told without a place."""
        self.circuit(FIFO, FIFO_SCRIPT + "R: 1\n", "a")
        ran = self.chpx("why", "f.prs", "f.script", "--program", "f.chp", "--buffer", "a", "--all")
        self.has(ran.out, [
            "a is received at the buffer on a: a?b0, which waits for the buffer on a: B0!b0\n",
            "  the buffer on a: B0!b0\n      it offers ",
            "B0 is received at f.chp:10:8: a?y, which waits for f.chp:10:13: b!y\n",
            "      in the buffer on a: a?b0; B0!b0\n      in the buffer on a: *[a?b0; B0!b0]\n",
        ])

    def test_calls(self) -> None:
        self.circuit(CALLS, "A: 1 2\n", "X")
        ran = self.chpx("why", "f.prs", "f.script", "--program", "f.chp", "--buffer", "X")
        self.assertEqual((ran.status, ran.err), (0, ""))
        self.has(ran.out, ["f.chp:7:9: A?x\n", "the buffer on X: B2!b2\n"])
        ran = self.chpx("events", "f.prs", "f.script", "--program", "f.chp", "--buffer", "X")
        self.has(ran.out, ["f.chp:7:9: A?x\n", "f.chp:7:47: X!3 and the buffer on X: X?b2\n",
                           "the buffer on X: B2!b2 and f.chp:5:3: X?y\n", "f.chp:5:8: R!{y[1:0], x[1:0]}\n"])

    def test_profile(self) -> None:
        self.circuit(FIFO, FIFO_SCRIPT, "a")
        words = ("profile", "f.prs", "f.script", "--program", "f.chp", "--buffer", "a")
        self.has(self.chpx(*words).out, ["the buffer on a: a?b0\n", "turns of", "the buffer on a: *[a?b0; B0!b0]"])
        told = json.loads(self.chpx(*words, "--json").out)
        self.assertEqual(sum(it["time"] for it in told["statements"]), told["end"])

    def test_sizes(self) -> None:
        self.circuit(FIFO, FIFO_SCRIPT, "a")
        with open("f.prs", encoding="ascii") as file:
            count = file.read().count("\nnode ")
        ran = self.chpx("stat", "f.chp", "--buffer", "a")
        self.has(ran.out, [f"nodes {count}\n", "channel B0\n", "variable b0\n", "send  the buffer on a  B0!b0\n"])
        self.has(self.chpx("tree", "f.chp", "--buffer=a").out, [">a?b0</text>", "the buffer on a</text>"])
        ran = self.chpx("cover", "f.chp", "f.script", "--buffer", "a")
        self.assertEqual((ran.status, ran.err), (0, ""))
        self.has(ran.out, ["channels used: 4 of 4\n"])

    def test_unnamed(self) -> None:
        """Without the word the nodes don't fit, and it says what may be missing."""
        self.circuit(FIFO, FIFO_SCRIPT, "a")
        for command in ("why", "events", "profile"):
            ran = self.chpx(command, "f.prs", "f.script", "--program", "f.chp")
            self.assertEqual((ran.status, ran.out), (1, ""))
            self.has(ran.err, ["f.prs isn't the rule file of f.chp", "has it a buffer? then --buffer X says"])
        ran = self.chpx("why", "f.prs", "f.script", "--program", "f.chp", "--buffer", "b")
        self.has(ran.out, ["its rules were changed, or the buffer is on another channel\n"])
