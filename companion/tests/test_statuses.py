"""What stands below the fixed line, for each status of the pages' table; typed as a person types it."""

from __future__ import annotations

import os

from companion import causes
from companion.tests.base import Case, Ran
from companion.tests.refused import HAZARD, LINES, NET, TEXTS, WORDS


# what is said of the place itself, where the text tells more than the page
SAID = {
    11: "this can't stand here",
    24: "4 bits wanted here, and `y` has 8",
    25: "1 bit wanted here, and 2 needs 2 bits",
    27: "x has the bits 3 to 0",
}


class Statuses(Case):
    """Each status, with the fixed line first and what is said below it."""

    def page_says(self, ran: Ran, status: int) -> None:
        """The table's sentences on a status stand there."""
        self.assertEqual(ran.status, status, ran.err)
        happened, todo = causes.statuses()[status]
        self.has(ran.err, [f"what happened: {happened}\n", f"what to do: {todo}\n"])

    def fake(self, line: str, status: int) -> Ran:
        """What comes of a program that says this and ends so, where the real one can't be brought to it."""
        self.write("fake", f"#!/bin/sh\necho '{line}' >&2\nexit {status}\n")
        os.chmod("fake", 0o755)
        return self.typed("check", self.write("f.chp", "begin skip end"), other=os.path.abspath("fake"))

    def test_0(self) -> None:
        ran = self.typed("check", self.example("one.chp"))
        self.assertEqual(ran, Ran(0, "accepted\nnodes 10\n", ""))

    def test_1(self) -> None:
        for number, (text, place, wide) in TEXTS.items():
            with self.subTest(number):
                ran = self.chpx("check", self.write("f.chp", text))
                self.assertEqual((ran.status, ran.out), (1, ""))
                cause = causes.causes()[number]
                self.assertTrue(cause.instead, "a cause without a way out")
                said = SAID.get(number, cause.when[0])
                self.has(ran.err, [f"chp: {number} {cause.name} at ", f"\nf.chp:{place}: {cause.name}: {said}\n"])
                carets = [line.split("|", 1)[1].strip() for line in ran.err.split("\n") if line.startswith("      | ")]
                self.assertEqual(carets, ["^" * wide] * (2 if number >= 30 else 1))
                if "write instead: " not in ran.err:
                    self.has(ran.err, [f"a way out: {'; or '.join(cause.instead)}\n"])

    def test_1_second_file(self) -> None:
        self.write("net", NET), self.write("script", ""), self.write("f.chp", "begin\n  skip skip\nend\n")
        ran = self.typed("simulate", "net", "script", "--against", "f.chp")
        self.assertEqual(ran.status, 1)
        self.has(
            ran.err,
            ["chp: 11 Syntax", "f.chp:2:8: Syntax", "    2 |   skip skip\n", "write instead: a `;` between them"],
        )

    def test_1_standard_input(self) -> None:
        ran = self.typed("check", "-", given="begin y := 0 end")
        self.assertEqual(ran.status, 1)
        self.has(ran.err, ["standard input:1:7: Undeclared"])

    def test_2(self) -> None:
        for words, (under, told) in WORDS.items():
            with self.subTest(words):
                ran = self.chpx(*words)
                self.assertEqual((ran.status, ran.out), (2, ""))
                fixed, line, carets, *_ = ran.err.split("\n")
                self.assertEqual((fixed, line), ("chp: 2 usage", " ".join(["  chpx", *words])))
                self.has(carets, [told])
                start, end = carets.index("^"), carets.rindex("^") + 1
                self.assertEqual(line[start:end], under)

    def test_3(self) -> None:
        ran = self.typed("simulate", self.write("net", NET), "nowhere")
        self.page_says(ran, 3)
        self.has(ran.err, ["chp: 3 read nowhere\n", "nowhere: this file, script, can't be read\n"])

    def test_4(self) -> None:
        ran = self.typed("compile", self.write("f.chp", "begin skip; skip end"), to="/dev/full")
        self.page_says(ran, 4)
        ran = self.typed("stat", self.write("f.chp", "begin skip; skip end"), to="/dev/full")
        self.assertEqual(ran.status, 4)
        self.has(ran.err, ["the output couldn't be written"])

    def test_5(self) -> None:
        ran = self.typed("simulate", self.write("net", HAZARD), self.write("script", ""))
        self.page_says(ran, 5)
        self.assertTrue(ran.out.startswith("end unstable z at 3"))

    def test_7(self) -> None:
        self.page_says(self.typed("check", self.write("f.chp", b"//" + b" " * 262_143)), 7)
        self.page_says(self.typed("compile", self.write("f.chp", "begin skip" + ";skip" * 16_384 + " end")), 7)
        many = "||".join(f"*[R{at}!1]" for at in range(8))
        self.write("f.chp", "".join(f"out R{at} : 1;" for at in range(8)) + f"begin {many} end")
        self.page_says(self.typed("run", "f.chp", self.write("script", ""), "--rounds", "1000000"), 7)

    def test_8(self) -> None:
        for number, (files, words, place, below) in LINES.items():
            with self.subTest(number):
                for name, text in {"net": NET, "script": "", "delays": "", **files}.items():
                    self.write(name, text)
                ran = self.chpx(*words)
                self.assertEqual((ran.status, ran.out), (8, ""))
                cause = causes.causes()[number]
                self.has(
                    ran.err,
                    [
                        f"chp: 8 {number} {cause.name} at line ",
                        f"\n{place}: the ",
                        f": {cause.name}: ",
                        "^" * len(below) + "\n",
                    ],
                )
                if "write instead: " not in ran.err:
                    self.has(ran.err, [f"a way out: {'; or '.join(cause.instead)}\n"])

    def test_8_windows(self) -> None:
        ran = self.typed("simulate", self.write("net", NET), self.write("script", "X: 1\r\n"))
        self.has(ran.err, ["script:1:1", "this line ends with CR and LF"])

    def test_9(self) -> None:
        ran = self.typed("simulate", self.write("net", NET), self.write("script", ""), "--order", "greatest")
        self.page_says(ran, 9)

    def test_10(self) -> None:
        self.example("one.chp"), self.write("two.chp", "out X : 1; begin X!0 end"), self.write("script", "")
        self.page_says(self.typed("simulate", self.compiled("two"), "script", "--against", "one.chp"), 10)

    def test_16(self) -> None:
        self.page_says(self.typed("compile", self.example("one.chp"), "--buffer", "X"), 16)

    def test_others(self) -> None:
        for line, status in (
            ("chp: 6 no memory", 6), ("chpc: broken off", 130), ("chpc: not proved", 70)
        ):
            if status in causes.statuses():
                ran = self.fake(line, status)
                self.page_says(ran, status)
                self.assertTrue(ran.err.startswith(line + "\n"))
        self.has(self.fake("nothing", 134).err, ["ended by the signal 6 with a status that no page tells of: 134"])
        self.assertEqual(self.typed("check", "f.chp", other="/nowhere").status, 127)

    def test_notes(self) -> None:
        ran = self.typed("simulate", self.write("net", NET), self.write("script", ""), "--seed", "5")
        self.assertEqual((ran.status, ran.err), (0, "note: --seed changes nothing without --order random\n"))
