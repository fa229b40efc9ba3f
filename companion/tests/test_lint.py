"""`lint`."""

from __future__ import annotations

import glob
import os

from companion.tests.base import EXAMPLES, Case


class Lint(Case):
    """What is found, and what isn't."""

    def found(self, text: str) -> list[str]:
        """The findings in a program, each a line."""
        ran = self.chpx("lint", self.write("f.chp", text))
        lines = [line for line in ran.out.splitlines() if line.startswith("f.chp:")]
        self.assertEqual(ran.status, 20 if lines else 0, ran.err)
        return lines

    def test_examples(self) -> None:
        for path in sorted(glob.glob(os.path.join(EXAMPLES, "*.chp"))):
            name = os.path.basename(path)
            ran = self.chpx("lint", self.example(name))
            wanted = "1 found\n" if name == "sink.chp" else "nothing found\n"  # a sink throws away what it takes
            self.assertIn(wanted, ran.out)

    def test_guards(self) -> None:
        head, arms = "in A : 3; out B : 3; var a : 3;\n", "[a = 0 -> B!a [] a > 4 -> B!1 [] a[0] & a[2] -> skip]"
        wanted = [
            "f.chp:2:14: no guard is true for a = 1..4: it waits for ever then",
            "f.chp:2:14: the guards 2 and 3 are true at once for a = 5, 7: it waits for ever then",
        ]
        self.assertEqual(self.found(f"{head}begin *[A?a; {arms}] end"), wanted)
        head, arms = "in A : 2; in B : 1; var a : 2; var b : 1;\n", "*[a = 1 -> a := 0 [] b // or\n -> b := 0]"
        wanted = ["f.chp:2:19: the guards 1 and 2 are true at once for (a = 1, b = 1): it waits for ever then"]
        self.assertEqual(self.found(f"{head}begin *[A?a, B?b; {arms}] end"), wanted)
        self.assertEqual(
            self.found("begin [0 -> skip]; [1 -> skip] end"), ["f.chp:1:7: no guard is ever true: it waits for ever"]
        )
        wide = "in A : 64; var a : 64; begin *[A?a; [a{} = 1 -> skip [] a{} != 1 -> skip]] end"
        self.assertEqual(self.found(wide.format("[40:29]", "[40:29]")), [])
        self.has(
            self.chpx("lint", self.write("f.chp", wide.format("", ""))).out,
            ["nothing found\ntried at the ends", "more than 12 bits: f.chp:1:37"],
        )

    def test_names(self) -> None:
        text = "chan q : 1;\nchan r : 1;\nchan w : 1;\nin A : 1;\nvar u : 1;\nvar v : 1;\nbegin q!1, r?v end"
        self.assertEqual(self.found(text), [
            "f.chp:1:6: nothing is received on q, so a send on it waits for ever",
            "f.chp:2:6: nothing is sent on r, so a receive on it waits for ever",
            "f.chp:3:6: the channel w isn't used",
            "f.chp:4:4: the channel A isn't used",
            "f.chp:5:5: the variable u isn't used",
            "f.chp:6:5: the variable v is written and never read",
        ])
        text = "in A : 1; out B : 2;\nvar a : 1;\nvar z : 1;\nvar k : 1;\nbegin *[A?a; B!{z, a}; B!{a, k ^ a}] end"
        kept = "f.chp:4:5: the variable k is read and never written: it keeps its first value"
        self.assertEqual(self.found(text), [kept])

    def test_constant_guards(self) -> None:
        head = "in A : 4; out B : 4; var a : 4;\n"
        text = f"{head}begin *[A?a; [a <= 15 -> B!a [] a > 15 -> skip]] end"
        self.assertEqual(
            self.found(text), ["f.chp:2:15: this guard is always true", "f.chp:2:33: this guard is never true"]
        )
        wide = "in A : 32; var a : 32;\nbegin *[A?a; [a < 1000 -> skip [] a >= 999 -> skip]] end"
        self.assertEqual(
            self.found(wide), ["f.chp:2:14: the guards 1 and 2 are true at once for a = 999: it waits for ever then"]
        )

    def test_loops(self) -> None:
        text = "out X : 1;\nbegin\n  *[skip];\n  X!1\nend"
        self.assertEqual(self.found(text), ["f.chp:3:3: this never ends, so what follows at 4:3 is never reached"])
        self.assertEqual(self.found("var x : 1; begin [x -> *[skip] [] ~x -> x := 1]; *[x -> *[skip]]; skip end"), [])
        always = "out R : 1; begin *[1 -> skip]; R!0 end"
        self.assertEqual(self.found(always), ["f.chp:1:18: this never ends, so what follows at 1:32 is never reached"])
        inner = "var x : 1; begin *[[x = 1 -> *[skip] [] x = 0 -> (skip || *[skip])]; x := 0] end"
        self.assertEqual(self.found(inner), ["f.chp:1:20: this never ends, so what follows at 1:70 is never reached"])
        called = "out R : 1; proc p = *[R!1]; begin call p; R!0 end"
        self.assertEqual(self.found(called), ["f.chp:1:35: this never ends, so what follows at 1:43 is never reached"])
