"""`view`: vectors, causes, times."""

from __future__ import annotations

import re
import shutil
import subprocess
import unittest

from companion.rules import net_in
from companion.signals import signals_of
from companion.tests.base import Case
from companion.vectors import identifier


def values_of(path: str) -> dict[str, list[tuple[int, str]]]:
    """For each name of a dump its values and when it takes them, one that it already has left out."""
    names: dict[str, list[str]] = {}
    told: dict[str, list[tuple[int, str]]] = {}
    now = 0
    with open(path, encoding="latin-1") as text:
        for line in text:
            words = line.split()
            if line.startswith("$var"):
                names.setdefault(words[3], []).append(words[4])
            elif re.match(r"#\d", line):
                now = int(line[1:])
            elif line[:1] in ("0", "1", "x", "z", "b") and names and len(words) == (2 if line[0] == "b" else 1):
                value, name = (words[0][1:], words[1]) if line[0] == "b" else (line[0], words[0][1:])
                for it in names[name]:
                    values = told.setdefault(it, [])
                    if not values or values[-1][1] != value:
                        values.append((now, value))
    return told


class View(Case):
    """Waves for people."""

    def setUp(self) -> None:
        super().setUp()
        self.example("gcd.chp"), self.example("gcd.script")
        self.compiled("gcd")

    def test_vectors(self) -> None:
        ran = self.chpx("view", "gcd.prs", "gcd.script", "--latency", "A", "G")
        self.assertEqual((ran.status, ran.err), (0, ""))
        told = values_of("gcd.vcd")
        sent = [int(value, 2) for _, value in told["A"] if value[0] != "z"]
        self.assertEqual(sent, [12, 35, 9])
        self.assertEqual([int(value, 2) for _, value in told["G"] if value[0] != "z"], [6, 7, 9])
        self.assertEqual([value for _, value in told["A"]][0::2], ["z" * 8] * 4)
        self.assertEqual([int(value, 2) for _, value in told["a"] if value[0] != "z"][:3], [0, 12, 6])
        self.has(
            ran.out,
            [
                "gcd.vcd: 2532 moves of 583 nodes, 3 channels and 2 variables",
                "channel",
                "cycle time\nA        3",
                "from A to G, value by value: ",
            ],
        )
        with open("gcd.gtkw", encoding="ascii") as file:
            self.has(
                file.read(),
                [
                    '[dumpfile] "gcd.vcd"',
                    "-channels",
                    "top.A[7:0]",
                    "top.nodes.A.a",
                    "-variables",
                    "top.a[7:0]",
                    "top.nodes.done",
                ],
            )

    def test_through_vcd2fst(self) -> None:
        """Another tool reads the vectors: what changed when is the same there and back."""
        if not shutil.which("vcd2fst") or not shutil.which("fst2vcd"):
            raise unittest.SkipTest("gtkwave's vcd2fst and fst2vcd aren't installed")
        self.chpx("view", "gcd.prs", "gcd.script")
        subprocess.run(["vcd2fst", "gcd.vcd", "gcd.fst"], check=True, stdout=subprocess.DEVNULL)
        with open("back.vcd", "wb") as file:
            subprocess.run(["fst2vcd", "gcd.fst"], check=True, stdout=file)
        written, back = values_of("gcd.vcd"), values_of("back.vcd")
        self.assertEqual(written, back)
        self.assertIn("a", back)

    def test_causes(self) -> None:
        ran = self.chpx("view", "gcd.prs", "gcd.script", "--causes-of", "G.a:1")
        self.assertEqual(ran.status, 0, ran.err)
        last = ran.out.splitlines()[-2].split()
        self.assertEqual(last[1:3], ["G.a", "1"])
        total = sum(int(line.split()[-1]) for line in ran.out.splitlines()[1:-1])
        self.assertEqual([str(total), f"time {total}"], [last[0], ran.out.splitlines()[-1]])

    def test_wrong_causes(self) -> None:
        for asked, told in (
            ("gone", "there is no node gone"), ("G.a:99", "G.a moves 6 times"), ("done", "done never moves")
        ):
            ran = self.chpx("view", "gcd.prs", "gcd.script", "--causes-of", asked)
            self.assertEqual(ran.status, 2)
            self.has(ran.err, [told])

    def test_delays_and_steps(self) -> None:
        self.write("slow", "A.a 50 50\n")
        ran = self.chpx("view", "gcd.prs", "gcd.script", "--delays", "slow", "--steps", "200", "--to", "s")
        self.has(ran.out, ["s.vcd: 200 moves", "\nG        0       -"])

    def test_signals(self) -> None:
        self.assertEqual(
            [(it.what, it.name, it.width) for it in signals_of(net_in("gcd.prs"))][2:4],
            [("channel", "G", 8), ("variable", "a", 8)],
        )
        self.assertEqual([identifier(number) for number in (0, 93, 94, 94 * 94)], ["!", "~", '!"', '!!"'])
