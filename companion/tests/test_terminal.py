"""Colours and progress, which are for terminals alone."""

from __future__ import annotations

import os
import pty
import subprocess

from companion.program import TOP
from companion.tests.base import Case


class Terminal(Case):
    """What a person sees, and what a file gets."""

    def setUp(self) -> None:
        super().setUp()
        self.write("slow", "#!/bin/sh\nsleep 1.3\necho accepted\necho 'chp: 11 Syntax at 0..4' >&2\nexit 1\n")
        os.chmod("slow", 0o755)
        self.write("f.chp", "skip")

    def on_terminal(self, **more: str) -> str:
        """What comes on a terminal that takes both streams."""
        leader, follower = pty.openpty()
        where = {**os.environ, "CHPC": os.path.abspath("slow"), "TERM": "xterm", **more}
        words = [os.path.join(TOP, "chpx"), "check", "f.chp"]
        with subprocess.Popen(words, stdin=subprocess.DEVNULL, stdout=follower, stderr=follower, env=where) as run:
            os.close(follower)
            pieces = []
            while True:
                try:
                    piece = os.read(leader, 4096)
                except OSError:
                    break
                if not piece:
                    break
                pieces.append(piece)
        os.close(leader)
        self.assertEqual(run.returncode, 1)
        return b"".join(pieces).decode()

    def test_terminal(self) -> None:
        told = self.on_terminal()
        self.has(told, ["\rchpx".replace("\r", "\r\x1b[K"), "check, 1 s", "\r\x1b[K", "accepted"])
        self.has(told, ["chp: 11 Syntax at 0..4", "\x1b[1mf.chp:1:1\x1b[0m: \x1b[31m", "^^^^"])

    def test_no_colour(self) -> None:
        self.assertNotIn("\x1b[1m", self.on_terminal(NO_COLOR="1"))

    def test_no_terminal(self) -> None:
        ran = self.typed("check", "f.chp", other=os.path.abspath("slow"))
        self.assertEqual((ran.status, ran.out), (1, "accepted\n"))
        self.assertNotIn("\x1b", ran.err)
        self.assertNotIn("chpx: check", ran.err)
