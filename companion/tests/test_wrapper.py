"""What `./chpc` does before the proved program answers: it looks at the words, and reckons how long a build takes."""

from __future__ import annotations

import io
import json
import os
import sys
import unittest
from unittest import mock

from companion.tests.base import Case
from wrapper import crates, unproved, watch
from wrapper.words import fault, forms


class Words(Case):
    """What is plainly wrong with a command line."""

    def test_forms(self) -> None:
        """Each command's words and options, as its forms show them."""
        places, options = forms()["simulate"]
        self.assertEqual(places, ("PRS", "SCRIPT"))
        self.assertEqual(sorted(options), ["--against", "--delays", "--order", "--power", "--seed", "--steps"])
        self.assertEqual(forms()["grow"], (("SEED", "STAGES"), {"--sum": ""}))

    def test_wrong_words(self) -> None:
        """Commands, options and numbers of words that no command has."""
        self.write("a.prs", "")
        for line, status, text in (
            ("frobnicate a.prs", 2, "there is no command frobnicate"),
            ("check", 2, "check takes FILE, and has 0"),
            ("migrate a.prs a.prs", 2, "migrate takes FILE, and has 2"),
            ("compile a.prs --bufer X", 2, "compile has no option --bufer"),
            ("compile a.prs --buffer", 2, "--buffer wants X behind it"),
            ("bench a.prs --order lowest", 2, "bench lacks --peer NAME (ramp or echo)"),
            ("simulate a.prs none", 3, "none: there is no such file"),
            ("waves a.prs a.prs --delays=none", 3, "none: there is no such file"),
            ("check -- --none", 3, "--none: there is no such file"),
        ):
            found = fault(line.split())
            self.assertIsNotNone(found, line)
            assert found is not None
            self.assertEqual(found[0], status, line)
            self.assertIn(text, found[1])

    def test_words_of_chpx(self) -> None:
        """What only chpx has is no fault behind --unproved."""
        given = io.TextIOWrapper(io.BytesIO(b"begin y := 0 end"))
        ready = mock.patch.object(unproved, "ready", return_value=0)
        with ready, mock.patch.dict(os.environ), mock.patch.object(sys, "stdin", given):
            ran = self.chpx("--unproved", "check", self.example("one.chp"), "--json")
            self.assertEqual((ran.status, json.loads(ran.out)["accepted"]), (0, True))
            self.has(self.chpx("--unproved", "check", "-").err, ["standard input:1:7: Undeclared"])

    def test_words_of_the_program(self) -> None:
        """What the program itself has to find is left to it."""
        self.write("a.prs", "")
        for line in ("check a.prs", "simulate a.prs a.prs --order none", "grow x y", "waves a.prs a.prs --steps x"):
            self.assertIsNone(fault(line.split()), line)


class Builds(unittest.TestCase):
    """How long a build takes, by the table of the gate."""

    def test_chain(self) -> None:
        """Crates that stand one upon the other come one after the other, and the longest chain first."""
        below = {"low": [], "high": ["low"], "beside": [], "other": []}
        costs = {"low": 2.0, "high": 2.0, "beside": 2.0, "other": 1.0}
        with mock.patch.object(watch, "processors", lambda: 2):
            self.assertEqual(watch.planned(below, costs, set(below)), 4.0)
            self.assertEqual(watch.planned(below, costs, {"high"}), 2.0)

    def test_crates(self) -> None:
        """Each crate of the programs has its minutes."""
        below = crates.crates_below(*crates.PROGRAMS)
        self.assertLessEqual({"chp_base", "chp_cli", "chpc", "pace_command", "chp_pace"}, set(below))
        self.assertTrue(all(cost > 0 for cost in crates.minutes(below).values()))


if __name__ == "__main__":
    unittest.main()
