"""`pace`: what chp_pace prints, beside the times of a run."""

from __future__ import annotations

import os
from unittest import mock

from companion import pace, program
from companion.program import Answer
from companion.tests.base import Case
from companion.waves import Change, Wave

PRINTED = '#!/bin/sh\nprintf "round 21\\nbound 42\\n"\n'
TWO_MORE = '[ $# = 1 ] || printf "rounds 2\\nsum 70\\n"\n'
REFUSES = '#!/bin/sh\necho "chp: 6 no memory" >&2\nexit 6\n'
NO_SCRIPT = '#!/bin/sh\necho "chp: 8 51 NoSuchChannel at line 1" >&2\nexit 8\n'


class Pace(Case):
    """The words of `pace`, and what is made of a wave."""

    def stand_in(self, text: str) -> None:
        """A program in place of chp_pace."""
        self.write("pace", text)
        os.chmod("pace", 0o755)
        given = mock.patch.dict(os.environ, {pace.VARIABLE: os.path.abspath("pace")})
        given.start()
        self.addCleanup(given.stop)

    def test_printed(self) -> None:
        """The lines of chp_pace come as they are."""
        self.stand_in(PRINTED)
        ran = self.chpx("pace", self.example("one.chp"))
        self.assertEqual((ran.status, ran.out, ran.err), (0, "round 21\nbound 42\n", ""))

    def test_script(self) -> None:
        """Where there is a script chp_pace is given that too, and what it prints comes before the times of a run."""
        self.stand_in(PRINTED + TWO_MORE)
        with mock.patch.object(pace, "measured", lambda *_: iter(["  rounds    time   bound"])):
            ran = self.chpx("pace", self.example("one.chp"), self.example("one.script"))
        self.assertEqual((ran.status, ran.err), (0, ""))
        self.assertEqual(ran.out, "round 21\nbound 42\nrounds 2\nsum 70\n  rounds    time   bound\n")

    def test_places(self) -> None:
        """Places in bytes are told by line and column; what has none stays as it is."""
        self.stand_in(PRINTED + 'printf "from send at 45..46\\nto end\\nloop 9 at 0..2\\nloop 3\\n"\n')
        source = self.example("one.chp")
        ran = self.chpx("pace", source)
        wanted = f"round 21\nbound 42\nfrom send at {source}:3:7\nto end\nloop 9 at {source}:1:1\nloop 3\n"
        self.assertEqual((ran.status, ran.out, ran.err), (0, wanted, ""))

    def test_no_script(self) -> None:
        """A script that chp_pace refuses is told as by `run`."""
        self.stand_in(NO_SCRIPT)
        ran = self.chpx("pace", self.example("one.chp"), self.write("s", "Q: 1\n"))
        self.assertEqual((ran.status, ran.out), (8, ""))
        self.has(ran.err, ["chp: 8 51 NoSuchChannel at line 1", "s:1", "Q: 1"])

    def test_refused(self) -> None:
        """A program that chpc refuses is told as by `check`; where chp_pace ends otherwise, so does chpx."""
        self.stand_in(REFUSES)
        self.assertEqual(self.chpx("pace", self.write("wrong.chp", "begin y := 0 end")).status, 1)
        ran = self.chpx("pace", self.example("one.chp"))
        self.assertEqual(ran.status, 6)
        self.has(ran.err, ["chp: 6 no memory"])

    def test_none(self) -> None:
        """Where there is no chp_pace, that is said."""
        with mock.patch.dict(os.environ, {pace.VARIABLE: "/nowhere"}):
            ran = self.chpx("pace", self.example("one.chp"))
        self.assertEqual(ran.status, 127)
        self.has(ran.err, ["/nowhere isn't there"])

    def test_rounds(self) -> None:
        """Rounds that pass nothing new aren't told; each has the time by which the last of its values has passed."""
        reports = ["done 0\nX:\nY:", "X: 3\nY:", "X: 3\nY:", "X: 3 4\nY: 7", "X: 3 4 5\nY: 7"]

        def wanted(words: list[str]) -> Answer:
            if words[0] == "compile":
                return Answer(0, b"", b"")
            return Answer(0, f"end spent\nrounds {words[4]}\n{reports[int(words[4]) - 1]}\n".encode(), b"")

        changes = [(5, "X.a", "1"), (7, "X.a", "0"), (11, "X.a", "1"), (12, "n4", "1"), (30, "Y.a", "1")]
        wave = Wave({}, [Change(*it) for it in changes])
        waves = mock.patch.object(pace, "wave_of", lambda *_, **__: wave)
        with mock.patch.object(program, "wanted", wanted), waves:
            found = [(n, pace.time_of(wave, counts)) for n, counts in pace.new_rounds("f", "s", 5)]
            table = list(pace.measured("f", "s", 5, 20))
        self.assertEqual(found, [(2, 5), (4, 30), (5, None)])
        self.assertEqual([row.split() for row in table[1:]], [["2", "5", "40"], ["4", "30", "80"], ["5", "-", "100"]])
