"""What the tests of the companion share."""

from __future__ import annotations

import contextlib
import io
import os
import subprocess
import sys
import tempfile
import unittest
from collections.abc import Sequence
from dataclasses import dataclass
from unittest import mock

from companion import main, program
from companion.terminal import Progress
from companion.tests import recorded

TOP = program.TOP
EXAMPLES = os.path.join(TOP, "examples")


@dataclass(frozen=True)
class Ran:
    """How a command ended: its status and what it wrote."""

    status: int
    out: str
    err: str


def relayed(words: Sequence[str], _: Progress) -> program.Answer:
    """What `program.relay` does, over recorded answers."""
    answer = recorded.answer(words)
    sys.stdout.write(answer.text())
    sys.stderr.write(answer.err.decode())
    return answer


class Case(unittest.TestCase):
    """A test in a folder of its own."""

    def setUp(self) -> None:
        before = os.getcwd()
        room = tempfile.TemporaryDirectory()
        os.chdir(room.name)
        self.addCleanup(room.cleanup)
        self.addCleanup(os.chdir, before)

    def write(self, name: str, text: str | bytes) -> str:
        """Writes a file, and tells its name."""
        with open(name, "wb") as file:
            file.write(text.encode() if isinstance(text, str) else text)
        return name

    def example(self, name: str) -> str:
        """Copies a file of `examples` to here."""
        with open(os.path.join(EXAMPLES, name), "rb") as file:
            return self.write(name, file.read())

    def compiled(self, name: str, *more: str) -> str:
        """Compiles NAME.chp to NAME.prs."""
        answer = recorded.answer(["compile", f"{name}.chp", *more])
        self.assertEqual(answer.status, 0, answer.err)
        return self.write(f"{name}.prs", answer.out)

    def chpx(self, *words: str) -> Ran:
        """Runs a command of the companion in this process."""
        out, err = io.StringIO(), io.StringIO()
        answers = mock.patch.multiple(program, answer=recorded.answer, relay=relayed)
        with answers, contextlib.redirect_stdout(out), contextlib.redirect_stderr(err):
            status = main.main(list(words))
        return Ran(status, out.getvalue(), err.getvalue())

    def typed(self, *words: str, given: str = "", to: str = "", other: str = "", top: str = TOP) -> Ran:
        """Runs ./chpx as a person does. `given` is standard input, `to` a file for standard output, `other` a program
        in place of the recorded answers, and `top` the folder that chpx lies in."""
        where = dict(os.environ, CHPC=other or recorded.stand_in("."))
        with contextlib.ExitStack() as stack:
            out = stack.enter_context(open(to, "wb")) if to else subprocess.PIPE
            run = subprocess.run(
                [sys.executable, os.path.join(top, "chpx"), *words],
                input=given.encode(),
                stdout=out,
                stderr=subprocess.PIPE,
                env=where,
                check=False,
            )
        return Ran(run.returncode, (run.stdout or b"").decode(), run.stderr.decode())

    def has(self, text: str, parts: Sequence[str]) -> None:
        """Whether a text has these parts, one behind the other."""
        at = 0
        for part in parts:
            found = text.find(part, at)
            self.assertGreaterEqual(found, 0, f"{part!r} isn't in\n{text}")
            at = found + len(part)
