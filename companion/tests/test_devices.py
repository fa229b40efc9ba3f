"""`bench --device`: devices in Python."""

from __future__ import annotations

import os
from unittest import mock

from companion import drive
from companion.onward import Onward
from companion.tests import recorded
from companion.tests.base import Case, Ran

FRONT = "from companion.devices import Device\n\n\nclass It(Device):\n"


class Devices(Case):
    """Those that come with the companion, and those of files."""

    def bench(self, name: str, *words: str) -> Ran:
        """A run of an example against devices."""
        self.example(f"{name}.chp")
        self.compiled(name)
        return self.chpx("bench", f"{name}.prs", *words)

    def of(self, text: str) -> Ran:
        """A run of the FIFO of one place against a device of a text."""
        return self.bench("fifo1", "--device", self.write("it.py", text))

    def test_squares(self) -> None:
        ran = self.bench("squares", "--device", self.example("squares.py"))
        self.assertEqual((ran.status, ran.err), (0, ""))
        self.has(
            ran.out,
            [
                "end rest\nmoves ",
                "\ndone 1\nA: 0 1 2 3 4\nB: 0 1 4 9 16\nS: 0 1 4 9 16\n",
                "the devices sent 5 values and took 10, in ",
                "the orders oldest, newest and random pass the same\n",
                "the script is squares-device.script: ",
            ],
        )
        with open("squares-device.script", encoding="ascii") as file:
            self.assertEqual(file.read(), "B: 0 1 4 9 16\n")
        again = recorded.answer(["simulate", "squares.prs", "squares-device.script", "--steps", "1000000"])
        self.assertTrue(ran.out.startswith(again.text()))
        self.assertFalse(os.path.exists("__pycache__"))

    def test_memory(self) -> None:
        """The machine runs its program from an image to its end."""
        image = self.example("machine.hex")
        ran = self.bench("machine", "--device", "memory:Q,R,W", "--image", image, "--keep-script", "kept")
        written = "W: 7 5 14 4 21 3 28 2 35 1 42 0\nO: 42\n"
        self.has(ran.out, ["end rest\n", "done 1\n", written, "the script is kept: "])
        with open("kept", encoding="ascii") as file, open(self.example("machine.script"), encoding="ascii") as other:
            self.assertEqual(file.read(), "".join(line for line in other if not line.startswith("//")))

    def test_onward(self) -> None:
        """Runs that go on where the last one ended tell the same; where none can go on, one is made from the start."""
        whole = self.bench("squares", "--device", self.example("squares.py"))
        with mock.patch.object(drive, "ENOUGH", 0):
            with mock.patch.object(Onward, "run", autospec=True, side_effect=Onward.run) as run:
                self.assertEqual(self.bench("squares", "--device", "squares.py"), whole)
            self.assertEqual(run.call_count, 5)
            # a rail of c stays high, which does no harm; while X isn't taken, a rail of it does
            self.write("p.chp", "in A : 1; chan c : 1; out X : 1; var a : 1; begin c!1 || *[A?a; X!a] end")
            self.compiled("p")
            self.has(self.chpx("bench", "p.prs", "--device", "source").out, ["A: 0 1 0 1 0 1 0 1 0 1\n"])
            start = "    def start(self):\n        for value in (1, 0, 1):\n            self.send('A', value)\n\n"
            ready = "    def ready(self, channel):\n        return not self.due['A']\n"
            ran = self.chpx("bench", "p.prs", "--device", self.write("it.py", FRONT + start + ready))
            self.has(ran.out, ["A: 1 0 1\nc:\nX: 1 0 1\n"])

    def test_echo(self) -> None:
        """It does what chpc's own device of that name does."""
        self.write("copy.chp", "in L : 4; out R : 4; var x : 4; begin *[L?x; R!x] end\n")
        self.compiled("copy")
        ran = self.chpx("bench", "copy.prs", "--device", "echo")
        peer = recorded.answer(["bench", "copy.prs", "--peer", "echo"]).text()
        self.assertTrue(ran.out.startswith(peer), ran.out)

    def test_source_and_sink(self) -> None:
        ran = self.bench("fifo4", "--device", "source:L", "--device=sink", "--image", self.write("i", "1 2\n@4 ff"))
        self.has(ran.out, ["L: 1 2 255\n", "\nR: 1 2 255\n", "sent 3 values and took 3, in 2 runs\n"])
        self.has(self.bench("lanes", "--device", "source").out, ["A: 0 1 0 1 0 1 0 1 0 1\nB: 0 1 0 1 0 1 0 1 0 1\n"])

    def test_fifo(self) -> None:
        """What the ring's first station sends on X comes back as its next message."""
        self.has(
            self.chpx("test", self.write("f.test", f"program {self.example('token.chp')}\ndevice fifo:X,A\nX =\n")).out,
            ["ok 1 - "],
        )

    def test_ready(self) -> None:
        start = "    asked = 0\n\n    def start(self):\n        self.send('L', 5)\n        self.send('L', 6)\n\n"
        ready = "    def ready(self, channel):\n        self.asked += 1\n        return self.asked == 1\n"
        ran = self.of(FRONT + start + ready)
        self.has(ran.out, ["L: 5 6\nR: 5\n"])
        with open("fifo1-device.script", encoding="ascii") as file:
            self.assertEqual(file.read(), "L: 5 6\nR: 1\n")

    def test_endless(self) -> None:
        """A device that always offers, cut off by the most moves; of what it sent the script has what passed."""
        self.write("it.py", FRONT + "    def offer(self, channel):\n        return 1\n")
        ran = self.bench("fifo1", "--device", "it.py", "--steps", "1000")
        self.has(ran.out, ["end spent\nmoves 1000\n"])
        with open("fifo1-device.script", encoding="ascii") as file:
            self.assertEqual(len(file.read().split()), ran.out.count(" 1", 0, ran.out.index("\nR:")) + 1)

    def test_faults(self) -> None:
        for text, why in (
            ("x = (\n", "it.py:1: the device can't be loaded: SyntaxError"),
            ("class It:\n    pass\n", "it.py: its last class has to extend Device"),
            ("import nowhere\n", "it.py:1: the device can't be loaded: ModuleNotFoundError"),
            (FRONT + "    def offer(self, channel):\n        return 256\n", "it.py: it offers 256 on L, which takes"),
            (FRONT + "    def offer(self, channel):\n        return 'a'\n", "it.py: it offers 'a' on L"),
            (FRONT + "    def start(self):\n        self.x = 1 / 0\n", "it.py:6: `start` failed: ZeroDivisionError"),
        ):
            with self.subTest(why):
                ran = self.of(text)
                self.assertEqual((ran.status, ran.out), (1, ""))
                self.has(ran.err, [f"chpx: {why}"])

    def test_words(self) -> None:
        for words, why in (
            (["--device", "disk"], "there is no device disk; there are source, sink, echo, fifo, memory, and files"),
            (["--device", "sink:K"], "sink:K: the circuit has no channel K"),
            (["--device", "memory:L"], "which channels of L are the memory's?"),
            (["--device", "sink", "--steps", "1000001"], "--steps is at most 1000000"),
        ):
            ran = self.bench("fifo1", *words)
            self.assertEqual((ran.status, ran.out), (2, ""))
            self.has(ran.err, [f"chpx: {why}"])
        ran = self.bench("fifo1", "--device", "source", "--image", self.write("image", "1\n2 g\n"))
        self.assertEqual(ran.status, 8)
        self.has(ran.err, ["image:2: g is no hexadecimal number"])
        self.assertEqual(self.chpx("bench", "fifo1.prs", "--device", "none.py").status, 3)
        self.has(self.chpx("bench", "--help").out, ["chpx bench PRS --peer NAME", "chpx bench PRS --device NAME"])
