"""`why`: the deadlocks, and runs that end otherwise."""

from __future__ import annotations

import re

from companion.tests.base import Case, Ran
from companion.tests.programs import ALU, ALU_SCRIPT, BOTH, BOTH_SCRIPT, RING, SELF


class Why(Case):
    """What is under way where a run stops."""

    def why(self, text: str, script: str, *more: str, compiled: tuple[str, ...] = ()) -> Ran:
        """What `why` says of a program under a script."""
        self.write("f.chp", text), self.write("f.script", script)
        return self.chpx("why", self.compiled("f", *compiled), "f.script", "--program", "f.chp", *more)

    def test_missing_arm(self) -> None:
        ran = self.why(ALU, ALU_SCRIPT)
        self.assertEqual(ran.status, 0, ran.err)
        self.has(ran.out, [
            "the run comes to rest after ",
            "the program hasn't ended\n",
            "under way\n  f.chp:11:5: [o = 0 -> R!a + b [] o = 1 -> R!a - b]\n",
            "none of its 2 guards is true, so it waits for ever\n      they read o = 2\n",
            "variables\n  o = 2\n  a = 7\n  b = 2\n",
            "blocked for good: f.chp:11:5: ",
        ])
        self.assertNotIn("deadlock", ran.out)

    def test_two_true_guards(self) -> None:
        ran = self.why(BOTH, BOTH_SCRIPT)
        self.has(ran.out, [
            "  f.chp:6:10: [a < 4 -> L!1 [] a > 2 -> H!1]\n",
            "the guards 1 (a < 4) and 2 (a > 2) are true at once, so it waits for ever\n",
            "      they read a = 3\n",
            "blocked for good: f.chp:6:10",
        ])

    def test_blocked_send(self) -> None:
        ran = self.why(RING, "")
        self.has(ran.out, [
            "  f.chp:7:5: p!x\n      it offers 5 on p\n",
            "      p is received at f.chp:8:17: p?y, which waits for f.chp:8:8: q!y + 1\n",
            "  f.chp:8:8: q!y + 1\n      it offers 10 on q\n",
            "      q is received at f.chp:7:10: q?x, which waits for f.chp:7:5: p!x\n",
            "variables\n  x = 5\n  y = 9\n",
            "a deadlock: each of these waits for the next one, the last one for the first\n",
            "  f.chp:7:5: p!x\n  f.chp:8:8: q!y + 1\n",
        ])

    def test_procedures(self) -> None:
        """Statements of a body are told with the call that is under way."""
        text = "chan p : 4;\nchan q : 4;\nvar x : 4 = 5;\nvar y : 4 = 9;\nproc a = p!x;\nproc up = (y := y + 1; q!y);\n"
        ran = self.why(text + "begin\n  *[call a; q?x; call a]\n  || *[call up; p?y]\nend\n", "", "--all")
        self.has(ran.out, [
            "  f.chp:5:10: p!x, in f.chp:8:5: call a\n      it offers 5 on p\n",
            "      p is received at f.chp:9:17: p?y, which waits for f.chp:6:24: q!y\n",
            "      in f.chp:8:5: call a\n      in f.chp:8:5: call a; q?x; call a\n",
            "  f.chp:6:24: q!y, in f.chp:9:8: call up\n      it offers 10 on q\n",
            "      q is received at f.chp:8:13: q?x, which waits for f.chp:5:10: p!x\n",
            "variables\n  x = 5\n  y = 10\n  h0 = 10\n",
            "a deadlock: each of these waits for the next one, the last one for the first\n",
            "  f.chp:5:10: p!x\n  f.chp:6:24: q!y\n",
        ])
        text = "chan X : 1; var v : 1; proc p = X!1; begin (call p; call p) || X?v end"
        ran = self.why(text, "")
        self.has(ran.out, ["f.chp:1:33: X!1, in f.chp:1:53: call p\n", "which is over"])
        text = "chan X : 1; var v : 1; proc get = X?v; begin X!1; call get; call get end"
        ran = self.why(text, "")
        self.has(ran.out, ["X is received at f.chp:1:35: X?v, in f.chp:1:51: call get, which isn't beside it"])

    def test_waits_for_itself(self) -> None:
        self.has(
            self.why(SELF, "").out,
            [
                "X is received at f.chp:5:3: X?v, which isn't beside it",
                "a deadlock: it waits for itself\n  f.chp:4:3: X!1",
            ],
        )

    def test_three_in_a_ring(self) -> None:
        ring = "chan p : 1; chan q : 1; chan r : 1; var x : 1; var y : 1; var z : 1;\n"
        ran = self.why(ring + "begin *[p!1; r?x] || *[q!1; p?y] ||\n*[r!1; q?z] end", "")
        self.has(ran.out, ["a deadlock: each of these", "  f.chp:2:9: p!1\n  f.chp:2:24: q!1\n  f.chp:3:3: r!1\n"])

    def test_ended_branch(self) -> None:
        ran = self.why("chan X : 1; var v : 1; begin (X!1; X!0) || X?v end", "")
        self.has(
            ran.out,
            [
                "f.chp:1:36: X!0",
                "which is over",
                "blocked for good: what they wait for has ended",
            ],
        )

    def test_repetition(self) -> None:
        ran = self.why("in A : 2; var a : 2; begin A?a;\n*[a > 0 -> a := 0 [] a > 1 -> a := 1] end", "A: 3")
        self.has(ran.out, ["f.chp:2:1: *[a > 0", "the guards 1 (a > 0) and 2 (a > 1) are true at once"])

    def test_environment(self) -> None:
        self.example("fifo4.chp"), self.example("fifo4.script")
        ran = self.chpx("why", self.compiled("fifo4"), "fifo4.script", "--program", "fifo4.chp")
        self.has(
            ran.out,
            [
                "c is received at fifo4.chp:16:8: c?z, which waits for fifo4.chp:16:13: R!z",
                "takes no more on R: 3 values have passed",
                "no deadlock",
            ],
        )

    def test_ended(self) -> None:
        ran = self.why("out X : 1; begin X!1 end", "")
        self.assertEqual(
            ran.out, "the run comes to rest after 13 moves, at time 13: no move is enabled, and the program has ended\n"
        )

    def test_spent(self) -> None:
        ran = self.why(RING, "", "--steps", "7", "--all")
        self.has(
            ran.out,
            [
                "the run was cut off after 7 moves",
                "greater --steps",
                "under way",
                "      in f.chp:7:3: *[p!x; q?x; R!x]\n",
            ],
        )

    def test_environment_before_rest(self) -> None:
        """Where a run is cut off, the environment may still send what its script has."""
        ran = self.why("in L : 1; var x : 1; begin *[L?x] end", "L: 1 0 1", "--steps", "5")
        self.has(
            ran.out, ["the run was cut off after 5 moves", "the environment is to send the next value on L: 0 val"]
        )

    def test_no_deadlock_before_rest(self) -> None:
        """While a run goes on, a send and its receive may both be under way."""
        text = "chan p : 4; var x : 4; begin *[p!9] || *[p?x] end"
        for steps in range(20, 40):
            ran = self.why(text, "", "--steps", str(steps))
            self.assertNotIn("deadlock", ran.out)

    def test_reset(self) -> None:
        self.has(self.why(RING, "", compiled=("--reset",)).out, ["a deadlock: each of these", "f.chp:7:5: p!x"])

    def test_changed_rules(self) -> None:
        self.write("f.chp", SELF), self.write("f.script", "")
        self.compiled("f")
        with open("f.prs", encoding="ascii") as file:
            text = file.read()
        self.write("f.prs", re.sub(r" & ~n\d+ -> done\+", " -> done+", text))
        self.has(
            self.chpx("why", "f.prs", "f.script", "--program", "f.chp").out,
            ["isn't what `compile` writes: its rules were changed", "waits for itself"],
        )

    def test_other_program(self) -> None:
        self.write("f.chp", SELF), self.write("f.script", ""), self.example("one.chp")
        ran = self.chpx("why", self.compiled("one"), "f.script", "--program", "f.chp")
        self.assertEqual((ran.status, ran.out), (1, ""))
        self.has(ran.err, ["one.prs isn't the rule file of f.chp"])

    def test_refused(self) -> None:
        """What chpc refuses on the way is explained as elsewhere."""
        self.write("f.chp", SELF), self.write("f.script", "X: 1\n")
        ran = self.chpx("why", self.compiled("f"), "f.script", "--program", "f.chp")
        self.assertEqual((ran.status, ran.out), (8, ""))
        self.has(ran.err, ["chp: 8 51 NoSuchChannel at line 1\n", "f.script:1:1: the script"])
