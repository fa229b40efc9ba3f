"""`profile`, and the graph of causes that it is worked out from."""

from __future__ import annotations

import json
from collections.abc import Callable
from typing import TypeVar
from unittest import mock

from companion import program
from companion.replay import chain_to, latest, replayed
from companion.rules import net_in
from companion.tests import recorded
from companion.tests.base import Case
from companion.waves import causes_of, wave_of

T = TypeVar("T")

# three branches that end together, none of whose nodes rises twice before the end
BRANCHES = """in A : 2;
in B : 1;
out R : 2;
var a : 2;
var b : 1;
var c : 1;
begin
  ((A?a; skip; skip), (B?b; c := b), skip); R!a + 1
end
"""


class Causes(Case):
    """What is worked out here of a run, against what chpc tells."""

    def asked(self, call: Callable[..., T], *words: object) -> T:
        """What a call answers that asks chpc."""
        with mock.patch.object(program, "answer", recorded.answer):
            return call(*words)

    def chains(self, name: str, *more: str, delays: str | None = None) -> None:
        """The chains of some moves are those that chpc tells."""
        self.example(f"{name}.chp"), self.example(f"{name}.script"), self.compiled(name, *more)
        net, script = net_in(f"{name}.prs"), f"{name}.script"
        wave = self.asked(wave_of, f"{name}.prs", script, delays)
        replay = replayed(net, wave)
        for move in range(len(wave.changes) - 1, -1, -len(wave.changes) // 4):
            own = [wave.changes[it] for it in chain_to(replay, move)]
            told = self.asked(causes_of, f"{name}.prs", script, delays, move + 1)
            lines = [f"{it.time} {it.node} {it.value}" for it in own]
            self.assertEqual(lines, [line.rpartition(" delay ")[0] for line in told[:-1]])

    def test_chains(self) -> None:
        self.chains("gcd")
        self.chains("bus")
        self.chains("merge", "--reset")
        self.chains("adder", delays=self.write("slow", "A.a 9 30\np.a 7 0\nS.a 100 1\ngo 5 5\nB.0.t 0 40\n"))

    def test_slack(self) -> None:
        """A node whose rise comes later by its slack doesn't make the end later; by one more it does."""
        self.write("f.chp", BRANCHES), self.write("f.script", "A: 2\nB: 1\n"), self.compiled("f")
        net, wave = net_in("f.prs"), self.asked(wave_of, "f.prs", "f.script")
        end = len(wave.changes) - 1
        late = latest(replayed(net, wave), wave, end)
        self.assertEqual(min(it - change.time for it, change in zip(late, wave.changes)), 0)
        tried = 0
        for node in ("A.0.f", "A.a", "B.0.t", "B.a", "b.0.t", "c.0.t", "c.0.wa", "R.1.t", "R.a"):
            rises = [at for at, it in enumerate(wave.changes) if (it.node, it.value) == (node, "1")]
            if len(rises) != 1 or late[rises[0]] == float("inf"):
                continue
            slack = int(late[rises[0]]) - wave.changes[rises[0]].time
            tried += slack > 0
            for more in (0, 1):
                delays = self.write("late", f"{node} {1 + slack + more} 1\n")
                slow = self.asked(wave_of, "f.prs", "f.script", delays)
                self.assertEqual(slow.changes[-1].time, wave.changes[-1].time + more, (node, slack))
        self.assertGreater(tried, 2)


class Profile(Case):
    """Where the time goes."""

    def setUp(self) -> None:
        super().setUp()
        for name in ("gcd", "adder", "bus"):
            self.example(f"{name}.chp"), self.example(f"{name}.script"), self.compiled(name)

    def profile(self, name: str, *more: str) -> str:
        """What `profile` says of an example."""
        ran = self.chpx("profile", f"{name}.prs", f"{name}.script", "--program", f"{name}.chp", *more)
        self.assertEqual((ran.status, ran.err), (0, ""))
        return ran.out

    def test_gcd(self) -> None:
        out = self.profile("gcd")
        self.has(out, [
            "time 644: from the start to time 644, move 2532, by which n175 rises: 644 moves, each the cause",
            "time  share  moves  statement on the chain\n",
            " 229    36%    229  gcd.chp:9:15: *[a > b -> a := a - b [] a < b -> b := b - a]\n",
            " 156    24%    156  gcd.chp:9:26: a := a - b\n",
            "slack  statement off the chain\n",
            "    0  gcd.chp:9:5: A?a\n",
            "turns of loops on the chain\n3 turns and a last one of 3, 76..319, mean 211.0: gcd.chp:9:3: *[A?a",
            "  turn 2: 319, 50%, from 242 to 563\n",
            "channel  values  least         mean   most          slack\n",
            "A        3       240 (1 to 2)  280.5  321 (2 to 3)  0\n",
        ])

    def test_sums(self) -> None:
        """The times add up to that of the chain, also of a part of the run."""
        for name, more in (("gcd", ()), ("bus", ()), ("adder", ("--from", "q:1", "--to", "q:3"))):
            told = json.loads(self.profile(name, "--json", *more))
            self.assertEqual(sum(it["time"] for it in told["statements"]), told["end"] - told["begin"])
            self.assertEqual(sum(it["moves"] for it in told["statements"]), told["moves"])
            self.assertEqual([it for it in told["statements"] if it["time"] and it["slack"]], [])

    def test_between(self) -> None:
        """Only what lies between two values."""
        out = self.profile("gcd", "--from", "G:2", "--to", "G:3", "--most", "2")
        self.has(out, [
            "time 78: from time 553, move 2170 to time 631, move 2504, by which G.a rises: 78 moves",
            "  28    36%     28  gcd.chp:9:15", "  20    26%     20  gcd.chp:9:10: B?b\n.. and 5 more\n",
            "1 turn, 28..28, mean 28.0", "  turn 8: 28, 36%, from 597 to 627\n",
            "G        3       78 (2 to 3)  78.0  78 (2 to 3)  0\n",
        ])

    def test_slack(self) -> None:
        """The third stage of the adder isn't waited for."""
        self.has(self.profile("adder"), ["slack  statement off the chain\n", "   38  adder.chp:17:15: S!sum\n"])

    def test_calls(self) -> None:
        """The body of a procedure is in the turns of the loops round its calls."""
        told = json.loads(self.profile("bus", "--json"))
        inner = next(it for it in told["loops"] if it["loop"].startswith("bus.chp:20:5"))
        self.assertEqual([it["turn"] for it in inner["turns"]], [1, 2, 3, 4])
        self.assertEqual([it["time"] for it in inner["turns"]][:2], [225, 224])

    def test_node(self) -> None:
        self.has(self.profile("gcd", "--to", "A.a:1"), ["time 15: from the start to time 15, move 95, by which A.a"])

    def test_wrong(self) -> None:
        for more, said in (
            (("--from", "G:3", "--to", "G:2"), "--from is move 2504 of the run, and has to come before --to"),
            (("--to", "G:7"), "3 values passed on G"), (("--to", "n1x"), "there is no channel n1x"),
            (("--from", "A.a:77"), "A.a moves 6 times"), (("--steps", "0"), "no move is made in this run"),
        ):
            ran = self.chpx("profile", "gcd.prs", "gcd.script", "--program", "gcd.chp", *more)
            self.assertEqual((ran.status, ran.out), (2, ""))
            self.has(ran.err, [said])
