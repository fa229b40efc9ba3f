"""`test`: test files of designs, those of all examples among them."""

from __future__ import annotations

import json
import os

from companion.tests.base import EXAMPLES, Case, Ran

GOOD = "program fifo1.chp\ncase all\nscript L: 1 0x02\nR = 1 2 // both\nnot done\n"


class Tests(Case):
    """How cases are checked, and what is told of those that fail."""

    def of(self, text: str, *more: str) -> Ran:
        """What comes of a test file beside the FIFO of one place."""
        self.example("fifo1.chp"), self.example("fifo1.script")
        return self.chpx("test", self.write("it.test", text), *more)

    def fails(self, text: str, *told: str) -> None:
        """Whether a file of one case fails, and what is told."""
        ran = self.of("program fifo1.chp\ncase one\n" + text)
        self.assertEqual((ran.status, ran.err), (1, ""))
        self.has(ran.out, ["TAP version 13\n1..1\nnot ok 1 - it.test: one (", *told, "# 1 of 1 cases failed\n"])

    def test_examples(self) -> None:
        """Each example has a test file, and all cases pass."""
        programs = {name[:-4] for name in os.listdir(EXAMPLES) if name.endswith(".chp")}
        self.assertEqual(programs, {name[:-5] for name in os.listdir(EXAMPLES) if name.endswith(".test")})
        self.assertEqual(programs - {name[:-7] for name in os.listdir(EXAMPLES) if name.endswith(".script")}, set())
        ran = self.chpx("test", EXAMPLES)
        self.assertEqual((ran.status, ran.err), (0, ""), ran.out)
        lines = ran.out.splitlines()
        self.assertEqual(lines[:2], ["TAP version 13", f"1..{len(lines) - 2}"])
        self.assertTrue(all(line.startswith(f"ok {at} - ") for at, line in enumerate(lines[2:], 1)))

    def test_runs(self) -> None:
        """Rounds, three orders, three seeds, delays of 1, two mixtures; with --reset runs from both power-ups."""
        ran = self.of(GOOD)
        self.assertEqual((ran.status, ran.err), (0, ""))
        self.has(ran.out, ["1..1\nok 1 - it.test: all (10 runs, ", " moves, time "])
        self.has(self.of(GOOD + "options --reset\n").out, ["ok 1 - it.test: all (19 runs, "])
        self.has(self.of(GOOD + "orders lowest random\nseeds 5\ndelays 0\n").out, ["(8 runs, "])

    def test_common_lines(self) -> None:
        """Lines before the first case are those of each; a case's own counts instead."""
        text = "program fifo1.chp\nscript fifo1.script\nR = 7 0\ncase as above\ncase other\nscript R: 1\nR = 7\n"
        self.has(self.of(text).out, ["ok 1 - it.test: as above (", "ok 2 - it.test: other ("])

    def test_values(self) -> None:
        script = "script L: 1 2 3\n"
        self.fails(
            script + "R = 1 2 4\n",
            "# it.test:4: R: value 3 is 3, wanted 4 (by chpc run)\n",
            "# the events up to it, by time where each move takes 1:\n#   ",
            " R 2\n",
            " R 3\n",
        )
        self.fails(script + "R = 0x1 0x12\n", "R: value 2 is 0x2, wanted 0x12 (", "R 2\n")
        self.fails(script + "R = 1 2\n", "R: value 3 is 3, and no more than 2 are wanted (", "R 3\n")
        self.fails(script + "R = 1 2 3 4\n", "R: value 4 doesn't come, wanted 4 (", "# the last events, ", "R 3\n")
        self.fails("R = 1\n", "value 1 doesn't come", "# nothing passed\n")
        self.fails("Q = 1\n", "# it.test:3: there is no channel Q (by chpc run)\n")
        self.assertEqual(self.of(GOOD.replace("R = 1 2", "R = 1 ..")).status, 0)

    def test_ends(self) -> None:
        self.fails("done\n", "# it.test:3: the program hasn't ended, wanted `done` (by chpc run)\n")
        self.fails("end spent\n", "the run ends with `rest`, wanted `spent` (by chpc run)")
        self.fails("script L: 1 2\nwithin 100 moves\n", "266 moves, more than 100 (by the order lowest)\n")
        self.fails("script L: 1 2\nwithin 20 time\n", "where each move takes 1, more than 20 (by delays of 1)")
        self.fails("script L: 1 2\nsteps 50\n", "the run ends with `spent`, wanted `rest` (by the order lowest)")

    def test_steps(self) -> None:
        """What passed is told of a run of as many moves as the case allows; rounds have no moves."""
        script = "script L: 1 2 3\nsteps 150\n"
        ran = self.of(f"program fifo1.chp\n{script}")
        self.has(ran.out, ["ends with `spent`, wanted `rest` (by the order lowest)\n# the last events"])
        self.assertEqual(ran.out.splitlines()[-3:], ["#   14 L 1", "#   30 R 1", "# 1 of 1 cases failed"])
        self.fails(script + "R = 1 2 4\nend spent\n", "value 3 is 3, wanted 4 (by chpc run)", " R 2\n", " R 3\n")

    def test_refused_programs(self) -> None:
        self.write("bad.chp", "var x : 1;\nbegin x := 2 end\n")
        for line in ("refused 25", "refused 25 at 2:12"):
            self.assertEqual(self.chpx("test", self.write("bad.test", f"{line}\n")).status, 0)
        self.write("bad.test", "refused 25 at 2:11\n")
        self.has(self.chpx("test", "bad.test").out, ["bad.test:1: refused otherwise", "chp: 25 ", "bad.chp:2:12: "])
        self.write("bad.test", "refused 24\n")
        self.has(self.chpx("test", "bad.test").out, ["bad.test:1: refused otherwise, wanted `refused 24`\n"])
        self.write("bad.test", "end rest\n")
        self.has(self.chpx("test", "bad.test").out, ["# chpc compile of bad.chp: chp: 25 ", "bad.chp:2:12: "])
        self.fails("refused 24\n", "# it.test:3: fifo1.chp is accepted, wanted `refused 24`\n")

    def test_refused_scripts(self) -> None:
        self.fails("script L: 256\n", "# it.test:3: 52 TooWide: a value doesn't fit")
        self.fails("script K: 1\n", "# it.test:3: 51 NoSuchChannel: ")
        self.fails("options --buffer K\n", "# chpc compile of fifo1.chp: chp: 16 channel K\n")

    def test_json(self) -> None:
        told = json.loads(self.of(GOOD, "--json").out)
        self.assertEqual((told["ok"], told["cases"][0]["ok"], told["cases"][0]["why"]), (True, True, []))
        ran = self.of(GOOD + "case two\nscript L: 1\nR = 2\n", "--json")
        told = json.loads(ran.out)
        self.assertEqual((ran.status, told["ok"], [it["ok"] for it in told["cases"]]), (1, False, [True, False]))
        case = told["cases"][1]
        self.assertEqual((case["file"], case["line"], case["title"]), ("it.test", 6, "two"))
        self.assertEqual(case["why"][0], "it.test:8: R: value 1 is 1, wanted 2 (by chpc run)")

    def test_keep(self) -> None:
        ran = self.of("program fifo1.chp\nscript L: 3\nR = 4\n", "--keep", "kept")
        self.has(ran.out, ["# its files are kept/0-fifo1.prs and kept/1.script\n"])
        with open("kept/1.script", encoding="ascii") as file:
            self.assertEqual(file.read(), "L: 3\n")

    def test_device(self) -> None:
        self.fails("device fifo:R,K\n", "fifo:R,K: the circuit has no channel K to the outside; it has L, R\n")
        self.assertEqual(self.of("program fifo1.chp\ndevice source\nR = 0 1 2 3 4 5 6 7 8 9\n").status, 0)


class Files(Case):
    """How test files are read, and what is told of lines that are none."""

    def test_faults(self) -> None:
        for line, place, why in (
            ("what = is", "8", "a number is wanted here"),
            ("nothing", "1", "a line begins with `case`"),
            ("case", "5", "`case` wants more words"),
            ("R = 1 .. 2", "7", "a number is wanted here"),
            ("end hazard", "5", "`rest` or `spent`"),
            ("done now", "6", "one word too many"),
            ("not ready", "5", "`done` is wanted here"),
            ("within moves", "8", "a number from 0"),
            ("within 5", "9", "`moves` or `time`"),
            ("refused x", "9", "a number from 0 to 99"),
            ("refused 24 in 3:4", "12", "`at LINE:COLUMN`"),
            ("orders first", "8", "an order is wanted here"),
            ("steps 1000001", "7", "a number from 0 to 1000000"),
            ("script L: 1\nscript L: 2", "8", "the script has its line for L"),
            ("R = 1\nR = 2", "1", "what passes on R is told above"),
        ):
            with self.subTest(line):
                ran = self.chpx("test", self.write("f.test", f"{line}\n"))
                self.assertEqual((ran.status, ran.out), (8, ""))
                number = line.count("\n") + 1
                self.has(ran.err, [f"chpx: f.test:{number}:{place}: {why}", f"    {number} | ", "^"])

    def test_script_and_device(self) -> None:
        ran = self.chpx("test", self.write("f.test", "device sink\ncase one\nscript L: 1\n"))
        self.assertEqual((ran.status, ran.out), (8, ""))
        self.has(ran.err, ["chpx: f.test:2: a case has a script or a device, and this one has both\n"])

    def test_missing(self) -> None:
        self.assertEqual(self.chpx("test", "none.test").status, 3)
        ran = self.chpx("test", self.write("f.test", "done\n"))
        self.assertEqual((ran.status, ran.out), (3, ""))
        self.has(ran.err, ["chpx: f.test:1: there is no program f.chp\n"])
        os.mkdir("folder")
        self.has(self.chpx("test", "folder").err, ["folder has no file that ends in .test"])
        self.write("f.test", "program g.chp\nscript none.script\n")
        self.assertEqual(self.chpx("test", "f.test").status, 3)
        self.assertEqual(self.chpx("test").status, 2)
