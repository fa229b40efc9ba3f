"""`hunt`: of sixty broken files it finds no fewer than 37, and in a compiled one nothing."""

from __future__ import annotations

import os
from unittest import mock

from companion import program, shrink
from companion.hunt import all_tries, moving, told
from companion.rules import read_net
from companion.terminal import Progress
from companion.tests import recorded
from companion.tests.base import Case
from companion.tests.broken import broken_files
from companion.tests.programs import FIFO, FIFO_SCRIPT
from companion.tries import Bench, Try

COUNT, SEED, WANTED = 60, 1, 37
FOUND = 45  # so many are found; the answers are recorded, so it is always this number


class Hunt(Case):
    """Hazards that were hidden in the rule file of a FIFO."""

    def setUp(self) -> None:
        super().setUp()
        self.write("fifo.chp", FIFO), self.write("fifo.script", FIFO_SCRIPT)
        self.compiled("fifo")
        with open("fifo.prs", encoding="ascii") as file:
            self.text = file.read()

    def test_sixty_broken_files(self) -> None:
        found: dict[str, int] = {}
        with mock.patch.object(program, "answer", recorded.answer):
            for number, text in enumerate(broken_files(self.text, COUNT, SEED)):
                self.write("broken.prs", text)
                bench = Bench("broken.prs", "fifo.script", None, ".")
                hit = bench.first(all_tries(moving(read_net(text, "broken.prs")), 10, 20), Progress(f"{number}"))
                if hit is not None:
                    kind = hit[0].what.split()[-1] if hit[0].delays else "an order"
                    found[kind] = found.get(kind, 0) + 1
        self.assertGreaterEqual(sum(found.values()), WANTED, found)
        self.assertEqual(sum(found.values()), FOUND, found)

    def test_first_hazard(self) -> None:
        """What is told and written of a hazard that no order shows, but a slow node."""
        for text in broken_files(self.text, COUNT, SEED):
            self.write("broken.prs", text)
            ran = self.chpx("hunt", "broken.prs", "fifo.script", "--seeds", "1", "--mixed", "0", "--to", "it")
            if ran.status == 5 and "slow" in ran.out:
                break
        self.assertEqual(ran.status, 5)
        self.has(
            ran.out,
            [
                "found by ",
                " slow; ",
                "hazard: ",
                "whose move did it: ",
                "each move the cause of the next",
                "the rules:",
                "it.delays",
                "it.vcd",
            ],
        )
        with open("it.delays", encoding="ascii") as file:
            delays = file.read()
        self.assertEqual(len(delays.splitlines()), 1)
        again = recorded.answer(["simulate", "broken.prs", "fifo.script", "--delays", "it.delays"])
        self.assertEqual(again.status, 5)
        self.assertTrue(os.path.getsize("it.vcd"))

    def test_nothing_to_find(self) -> None:
        ran = self.chpx("hunt", "fifo.prs", "fifo.script", "--seeds", "2", "--mixed", "1")
        self.assertEqual(ran.status, 0, ran.err)
        self.has(ran.out, ["no hazard in ", "that proves nothing"])

    def test_help_says_what_it_proves(self) -> None:
        self.has(
            self.typed("hunt", "--help").out,
            ["nothing is found proves nothing", "`chpc compile` wrote there", "nothing to find"],
        )

    def test_no_delay_file(self) -> None:
        """A hazard that an order shows, and no delay file that was tried."""
        net, found = read_net(self.text, "fifo.prs"), Try("the order newest", ("--order", "newest"))
        lines = told(Bench("fifo.prs", "fifo.script", None, "."), net, found, None, "it")
        self.assertEqual(lines[0], "found by the order newest; 0 runs were begun")
        self.assertTrue(lines[1].endswith("chpc simulate fifo.prs fifo.script --order newest does"))

    def test_refused(self) -> None:
        self.write("bad.script", "L: 7\n")
        ran = self.chpx("hunt", "fifo.prs", "bad.script")
        self.assertEqual((ran.status, ran.out), (8, ""))
        self.has(ran.err, ["chp: 8 52 TooWide at line 1\n", "bad.script:1:4: the script"])
        ran = self.chpx("hunt", "fifo.prs", "fifo.script", "--seeds", "-1")
        self.assertEqual((ran.status, ran.out), (2, ""))
        self.has(ran.err, ["--seeds", "-1 isn't a number from 0 on"])


class Shrink(Case):
    """The shortest delay file, where it is told what shows a hazard."""

    def test_lines(self) -> None:
        text = "".join(f"n{at} {at + 5} 9\n" for at in range(20))
        short = shrink.shortest(text, lambda delays: "n3 " in delays and "n17 " in delays)
        self.assertEqual(short, "n3 1 1\nn17 1 1\n")

    def test_numbers(self) -> None:
        def shows(delays: str) -> bool:
            return any(int(line.split()[1]) >= 4 for line in delays.splitlines())

        self.assertEqual(shrink.shortest("a 1000 1000\nb 1 1\n", shows), "a 5 1\n")

    def test_none(self) -> None:
        self.assertEqual(shrink.shortest("a 1000 1000\n", lambda delays: True), "")
