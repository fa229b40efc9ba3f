"""What is said where only the companion was copied somewhere, without the pages that its sentences stand in."""

from __future__ import annotations

import os
import shutil

from companion.tests.base import TOP, Case, Ran
from companion.tests.refused import NET

MORE = "(more is told where the folder docs lies beside companion, which it doesn't here)\n"


class NoPages(Case):
    """Answers stay clear: places and what the text itself tells, and where more is told."""

    def setUp(self) -> None:
        super().setUp()
        os.mkdir("copy")
        shutil.copy(os.path.join(TOP, "chpx"), "copy")
        leave = shutil.ignore_patterns("tests", "__pycache__")
        shutil.copytree(os.path.join(TOP, "companion"), "copy/companion", ignore=leave)

    def copied(self, status: int, *words: str, given: str = "") -> Ran:
        """What comes of the copy, with this status."""
        ran = self.typed(*words, given=given, top="copy")
        self.assertEqual(ran.status, status, ran.err)
        self.assertNotIn("Traceback", ran.err)
        return ran

    def test_help(self) -> None:
        self.has(self.copied(0, "--help").out, ["with its answer explained:\n  " + MORE, "  why "])
        self.has(self.copied(0, "check", "--help").out, ["`chpc check` " + MORE])
        self.has(self.copied(0, "why", "--help").out, ["usage: chpx why"])

    def test_places(self) -> None:
        self.write("f.chp", "in L : 4; var x : 8; begin L?x[3:0] end")
        told = ["f.chp:1:31: Syntax: this can't stand here\n", "  ^\nexpected here: ", "{x[7:4], t}` (for", MORE]
        self.has(self.copied(1, "check", "f.chp").err, told)
        self.has(self.copied(1, "check", "-", given="begin y := 0 end").err, ["standard input:1:7: Undeclared\n", MORE])
        self.write("net", NET)
        ran = self.copied(8, "simulate", "net", self.write("script", "X: 1\r\n"))
        self.has(ran.err, ["script:1:1: the script: BadLine\n", "this line ends with CR and LF", MORE])

    def test_statuses(self) -> None:
        ran = self.copied(2, "check")
        self.assertEqual(ran.err, "chp: 2 usage\nwhich word is wrong isn't known " + MORE)
        ran = self.copied(3, "simulate", self.write("net", NET), "nowhere")
        self.assertEqual(ran.err, "chp: 3 read nowhere\nnowhere: this file can't be read\n" + MORE)
        ran = self.copied(9, "simulate", "net", self.write("script", ""), "--order", "greatest")
        self.assertEqual(ran.err, "chp: 9 order greatest\n" + MORE)

    def test_refused_scripts(self) -> None:
        self.example("fifo1.chp"), self.write("it.test", "program fifo1.chp\ncase one\nscript L: 256\n")
        self.has(self.copied(1, "test", "it.test").out, ["# it.test:3: 52 TooWide\n"])

    def test_unproved(self) -> None:
        self.has(self.copied(127, "--unproved", "check", "f.chp").err, ["no source of one lies beside companion"])
