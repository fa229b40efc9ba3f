"""`sort`: a shuffled rule file becomes the compiled one, byte for byte."""

from __future__ import annotations

import glob
import os
import random

from companion.tests.base import EXAMPLES, Case


class Sort(Case):
    """Rule files in other orders."""

    def read(self, name: str) -> str:
        """A file as text."""
        with open(name, encoding="ascii") as file:
            return file.read()

    def shuffled(self, text: str, *kinds: str) -> str:
        """The text with the lines of these kinds in another order; with no kind all lines."""
        lines = text.splitlines(keepends=True)
        places = [at for at, line in enumerate(lines) if not kinds or line.split()[0] in kinds]
        moved = random.Random(5).sample(places, len(places))
        made = list(lines)
        for at, other in zip(places, moved):
            made[at] = lines[other]
        return "".join(made)

    def test_all_lines(self) -> None:
        for more in ((), ("--reset",)):
            for path in sorted(glob.glob(os.path.join(EXAMPLES, "*.chp"))):
                name = os.path.basename(path)[:-4]
                self.example(f"{name}.chp")
                text = self.read(self.compiled(name, *more))
                with self.subTest(name, more=more):
                    ran = self.chpx("sort", self.write("s.prs", self.shuffled(text)), "--program", f"{name}.chp")
                    self.assertEqual((ran.status, ran.err), (0, ""))
                    self.assertEqual(ran.out, text)

    def test_without_program(self) -> None:
        self.example("gcd.chp")
        text = self.read(self.compiled("gcd"))
        ran = self.chpx("sort", self.write("s.prs", self.shuffled(text, "rule")))
        self.assertEqual((ran.status, ran.out, ran.err), (0, text, ""))
        ran = self.chpx("sort", self.write("s.prs", self.shuffled(text, "rule", "in", "out")))
        self.assertEqual((ran.status, ran.out, ran.err), (0, text, ""))
        ran = self.chpx("sort", self.write("s.prs", self.shuffled(text)))
        self.assertEqual(ran.status, 0)
        self.has(ran.err, ["note: in which order these come isn't told by names, so it is that of their lines"])
        one = self.read(self.compiled_text("out X : 2; var a : 2; var b : 3; begin a := 1, b := 2; X!a end"))
        ran = self.chpx("sort", self.write("s.prs", self.shuffled(one)))
        self.assertEqual((ran.status, ran.out, ran.err), (0, one, ""))

    def test_many_widths(self) -> None:
        """Variables of one bit have no tree of numbered nodes, so they are told apart from wider ones by what
        follows."""
        for seed in range(4):
            draw = random.Random(seed)
            names = [f"v{at}" for at in range(30)]
            head = "".join(f"var {name} : {draw.choice((1, 1, 1, 2, 3, 8))};\n" for name in names)
            text = self.read(self.compiled_text(f"{head}begin {'; '.join(f'{name} := 0' for name in names)} end"))
            ran = self.chpx("sort", self.write("s.prs", self.shuffled(text)), "--program", "f.chp")
            self.assertEqual((ran.status, ran.out), (0, text))

    def compiled_text(self, text: str) -> str:
        """The rule file of a text."""
        self.write("f.chp", text)
        return self.compiled("f")

    def test_other_program(self) -> None:
        self.example("gcd.chp"), self.example("one.chp")
        ran = self.chpx("sort", self.compiled("gcd"), "--program", "one.chp")
        self.assertEqual((ran.status, ran.out), (1, ""))
        self.has(ran.err, ["the program's circuit has other nodes"])

    def test_foreign(self) -> None:
        text = "rule a -> b-\nnode b 0\nprs 1\nnode a 1\nnode done 0\nrule ~a -> b+\nrule go -> a-\nnode go 0\n"
        ran = self.chpx("sort", self.write("s.prs", text))
        self.assertEqual(
            ran.out, "prs 1\nnode go 0\nnode done 0\nnode b 0\nnode a 1\nrule ~a -> b+\nrule a -> b-\nrule go -> a-\n"
        )

    def test_refused(self) -> None:
        for text, told in (
            ("prs 1\nnode go 0\nnode done 0\nnode go 0\n", "s.prs:4: there is another line for this"),
            ("prs 1\nnodes\n", "s.prs:2: this line is none of a rule file"),
            ("node go 0\n", "no line tells the version"),
            (
                "prs 1\nnode go 0\nrule gone -> done+\nnode done 0\n",
                "chp: 8 41 UnknownNode at line 4\ns.prs in order:4:6: ",
            ),
        ):
            ran = self.chpx("sort", self.write("s.prs", text))
            self.assertEqual((ran.status, ran.out), (8, ""))
            self.has(ran.err, [told])
