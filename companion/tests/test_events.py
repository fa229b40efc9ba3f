"""`events`, `--until` and `cover`."""

from __future__ import annotations

import json

from companion.hazards import ENDED
from companion.tests.base import Case
from companion.tests.programs import ALU, ALU_SCRIPT, BOTH, BOTH_SCRIPT

PIPELINE = """move  time  channel  value  statement
  53    15  L            3  pipeline.chp:9:5: L?x
 181    46  M            4  pipeline.chp:9:10: M!x + 1 and pipeline.chp:10:8: M?y
 341    81  L           15  pipeline.chp:9:5: L?x
 342    81  R            8  pipeline.chp:10:13: R!y + y
 519   112  M           16  pipeline.chp:9:10: M!x + 1 and pipeline.chp:10:8: M?y
 683   147  L          255  pipeline.chp:9:5: L?x
 684   147  R           32  pipeline.chp:10:13: R!y + y
 851   178  M            0  pipeline.chp:9:10: M!x + 1 and pipeline.chp:10:8: M?y
 975   213  R            0  pipeline.chp:10:13: R!y + y
"""


class Events(Case):
    """What passed, in one order."""

    def setUp(self) -> None:
        super().setUp()
        for name in ("pipeline", "gcd"):
            self.example(f"{name}.chp"), self.example(f"{name}.script"), self.compiled(name)

    def test_pipeline(self) -> None:
        words = ("events", "pipeline.prs", "pipeline.script")
        ran = self.chpx(*words, "--program", "pipeline.chp")
        self.assertEqual((ran.status, ran.out, ran.err), (0, PIPELINE, ""))
        bare = [line.split()[:4] for line in PIPELINE.splitlines()]
        self.assertEqual([line.split() for line in self.chpx(*words).out.splitlines()], bare)

    def test_moves(self) -> None:
        """A run of as many moves ends with the value."""
        for move, passed in ((180, 0), (181, 1)):
            ran = self.chpx("simulate", "pipeline.prs", "pipeline.script", "--delays", self.write("d", ""),
                            "--steps", str(move))
            line = next(it for it in ran.out.splitlines() if it.startswith("M:"))
            self.assertEqual(len(line.split()) - 1, passed)

    def test_until_and_channel(self) -> None:
        words = ("events", "pipeline.prs", "pipeline.script", "--until", "M:2", "--channel", "M", "--hex")
        self.has(self.chpx(*words).out, ["181", "46", "M", "0x4\n", "519", "112", "M", "0x10\n"])
        ran = self.chpx(*words, "--channel", "R", "--json")
        told = json.loads(ran.out)
        self.assertEqual([(it["channel"], it["value"]) for it in told["events"]], [("M", 4), ("R", 8), ("M", 16)])
        self.assertEqual((told["moves"], told["hazard"], told["notes"]), (519, False, []))

    def test_wrong_until(self) -> None:
        for asked, said in (
            ("R:4", "3 values passed on R in this run of 1022 moves, so there is no value 4"),
            ("R:0", "--until wants a channel and a number from 1 on, as R:3"),
            ("R", "--until wants a channel and a number from 1 on, as R:3"),
            ("Q:1", "there is no channel Q; the channels are L, M, R"),
        ):
            ran = self.chpx("events", "pipeline.prs", "pipeline.script", "--until", asked)
            self.assertEqual((ran.status, ran.out), (2, ""))
            self.has(ran.err, [said])
        self.assertEqual(self.chpx("events", "pipeline.prs", "pipeline.script", "--channel", "q").status, 2)
        self.assertEqual(self.chpx("events", "pipeline.prs", "pipeline.script", "--buffer", "M").status, 2)

    def test_order(self) -> None:
        """The events of a run by an order: on each channel the same values pass, by other moves."""
        words = ("events", "pipeline.prs", "pipeline.script", "--order", "newest", "--json")
        told = json.loads(self.chpx(*words).out)
        timed = json.loads(self.chpx(*words[:3], "--json").out)
        for name in "LMR":
            of_both = [[it["value"] for it in each["events"] if it["channel"] == name] for each in (told, timed)]
            self.assertEqual(of_both[0], of_both[1])
        moves = [it["move"] for it in told["events"]]
        self.assertEqual((moves, told["moves"]), (sorted(moves), 1022))
        ran = self.chpx(*words[:5], "--steps", str(moves[3]), "--hex")
        self.has(ran.out, [f"note: the run has {moves[3]} moves, as many as are allowed", "move  time", "   -  "])
        self.assertEqual(ran.out.splitlines()[-1].split()[0], str(moves[3]))
        for more in (("--until", "R:1"), ("--delays", "d")):
            self.assertEqual(self.chpx(*words, *more).status, 2)
        self.assertEqual(self.chpx(*words[:3], "--seed", "1").status, 2)
        self.assertEqual(self.chpx(*words[:3], "--order", "fastest").status, 9)

    def test_statements_of_order(self) -> None:
        """On each channel the same statements as in the timed run, also where they are in a procedure, and where fewer
        moves of the timed run don't bring as much on each channel."""
        self.example("bus.chp"), self.example("bus.script"), self.compiled("bus")
        for name, order, most in (("bus", "lowest", "1000"), ("pipeline", "newest", "500")):
            words = ("events", f"{name}.prs", f"{name}.script", "--program", f"{name}.chp", "--json")
            told = json.loads(self.chpx(*words, "--order", order, "--steps", most).out)["events"]
            timed = json.loads(self.chpx(*words).out)["events"]
            for channel in {it["channel"] for it in told}:
                of_both = [[it["statements"] for it in each if it["channel"] == channel] for each in (told, timed)]
                self.assertEqual(of_both[0], of_both[1][:len(of_both[0])])
            self.assertTrue(all(it["statements"] for it in told))
        self.has(self.chpx(*words[:5], "--order", "newest").out, ["statement\n", "pipeline.chp:10:13: R!y + y\n"])

    def test_hazard(self) -> None:
        """The events up to a hazard, and its status."""
        with open("pipeline.prs", encoding="ascii") as file:
            text = file.read()
        self.write("bad.prs", text.replace("rule L.a", "rule ~R.a & L.a").replace(" -> R.0.t+", " | go -> R.0.t+"))
        words = ("bad.prs", "pipeline.script")
        ran = self.chpx("events", *words)
        self.assertEqual(ran.status, 5)
        self.has(ran.out, ["move  time  channel", ENDED])
        for more in ((), ("--causes-of", "go")):
            ran = self.chpx("view", *words, *more)
            self.assertEqual((ran.status, ran.out.splitlines()[-1]), (5, ENDED))
        words += ("--program", "pipeline.chp")
        ran = self.chpx("profile", *words)
        self.assertEqual((ran.status, ran.out.splitlines()[-1]), (5, ENDED))
        ran = self.chpx("profile", *words, "--json")
        self.assertEqual((ran.status, json.loads(ran.out)["hazard"]), (5, True))
        ran = self.chpx("why", *words)
        self.assertEqual(ran.status, 5)
        self.has(ran.out, ["the run ends in a hazard after"])
        ran = self.chpx("why", *words, "--json")
        self.assertEqual((ran.status, json.loads(ran.out)["end"].split()[0]), (5, "both"))

    def test_why_until(self) -> None:
        words = ("gcd.prs", "gcd.script", "--until", "G:2")
        ran = self.chpx("why", *words, "--program", "gcd.chp", "--hex")
        self.has(ran.out, [
            "the run is stopped after 2170 moves, at time 553, by which value 2 passes on G\n",
            "  gcd.chp:9:62: G!a\n      it offers 0x7 on G\n",
            "the value has passed on G, and its handshake isn't over: 2 values have passed\n",
            "  a = 0x7\n  b = 0x7\n",
        ])
        told = json.loads(self.chpx("why", *words, "--program", "gcd.chp", "--json").out)
        self.assertEqual(told["variables"], {"a": 7, "b": 7})
        self.assertEqual((told["moves"], told["passed"]["G"], told["deadlocks"]), (2170, [6, 7], []))
        self.assertEqual([it["statement"] for it in told["under_way"]], ["gcd.chp:9:62: G!a"])
        self.has(self.chpx("view", *words, "--hex").out, ["gcd.vcd: 2170 moves", "\nG        2 "])
        with open("gcd.gtkw", encoding="ascii") as file:
            self.has(file.read(), ["@22\ntop.A[7:0]", "-variables\n@22\n"])


class Cover(Case):
    """What never happened."""

    def cover(self, text: str, *scripts: str) -> tuple[int, str]:
        """What `cover` says of a program under some scripts."""
        self.write("f.chp", text)
        names = [self.write(f"{number}.script", script) for number, script in enumerate(scripts)]
        ran = self.chpx("cover", "f.chp", *names)
        self.assertEqual(ran.err, "")
        return ran.status, ran.out

    def test_all(self) -> None:
        self.example("gcd.chp"), self.example("gcd.script")
        ran = self.chpx("cover", "gcd.chp", "gcd.script")
        counts = "statements begun: 9 of 9\narms taken: 2 of 2\nguards true: 2 of 2\nchannels used: 3 of 3\n"
        self.assertEqual((ran.status, ran.out), (0, counts))

    def test_arm(self) -> None:
        status, out = self.cover(ALU, "O: 0 0\nA: 3 7\nB: 4 2\n")
        self.assertEqual(status, 20)
        self.has(out, [
            "f.chp:12:8: this guard was never true, so its arm was never taken: o = 1\n",
            "   12 |     [] o = 1 -> R!a - b]]\n      |        ^^^^^\n",
            "statements begun: 8 of 9\narms taken: 1 of 2\nguards true: 1 of 2\nchannels used: 4 of 4\n",
        ])
        self.assertNotIn("never begun", out)
        self.assertEqual(self.cover(ALU, "O: 0 0\nA: 3 7\nB: 4 2\n", ALU_SCRIPT, "O: 1\nA: 1\nB: 1\n")[0], 0)

    def test_true_guards(self) -> None:
        self.has(self.cover(BOTH, "A: 3\n")[1], [
            "f.chp:2:5: nothing passed on L\n",
            "f.chp:6:11: this arm was never taken, though its guard was true: a < 4\n",
            "f.chp:6:27: this arm was never taken, though its guard was true: a > 2\n",
            "arms taken: 0 of 2\nguards true: 2 of 2\nchannels used: 1 of 3\n",
        ])
        self.assertEqual(self.cover(BOTH, BOTH_SCRIPT)[0], 0)

    def test_never_begun(self) -> None:
        text = "in A : 1; var a : 1; out R : 1;\nproc p = (a := a; R!a);\nbegin A?a; call p; *[R!a]; skip end"
        status, out = self.cover(text, "")
        self.assertEqual(status, 20)
        self.has(out, [
            "f.chp:1:4: nothing passed on A\n", "f.chp:2:11: never begun: a := a; R!a\n",
            "f.chp:3:12: never begun: call p\n", "f.chp:3:20: never begun: *[R!a]\n", "f.chp:3:28: never begun: skip\n",
        ])
        self.has(self.cover(text, "A: 1\n")[1], ["never begun: skip\n", "statements begun: 8 of 9\n"])

    def test_refused(self) -> None:
        self.write("f.chp", "begin skip end")
        ran = self.chpx("cover", "f.chp", "gone.script")
        self.assertEqual((ran.status, ran.out), (3, ""))
        ran = self.chpx("cover", "f.chp", self.write("f.script", "X: 1"))
        self.assertEqual((ran.status, ran.out), (8, ""))
        self.has(ran.err, ["f.script:1:1: the script"])
