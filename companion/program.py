"""Calls of the proved program, which gives every answer."""

from __future__ import annotations

import os
import subprocess
import sys
import threading
from collections.abc import Sequence
from dataclasses import dataclass
from typing import BinaryIO

from companion.terminal import Progress

_called: list[bool] = []  # something where the program has answered
TOP = os.path.dirname(os.path.dirname(os.path.abspath(__file__)))


class Refusal(Exception):
    """A command of the companion can't go on: `text` says why, and it ends with `status`."""

    def __init__(self, text: str, status: int = 1) -> None:
        super().__init__(text)
        self.text = text
        self.status = status


@dataclass(frozen=True)
class Answer:
    """What a call ended with: its status, and the bytes that it wrote on standard output and on standard error."""

    status: int
    out: bytes
    err: bytes

    def text(self) -> str:
        """Standard output as characters; a byte that is none of UTF-8 is shown as a replacement."""
        return self.out.decode("utf-8", "replace")

    def said(self) -> str:
        """The fixed line: the last one on standard error that begins with `chp: `, or nothing."""
        lines = self.err.decode("utf-8", "replace").split("\n")
        return next((line for line in reversed(lines) if line.startswith("chp: ")), "")


class Ended(Exception):
    """The proved program ended with a status at which the companion can't go on; the words and the answer tell
    which."""

    def __init__(self, words: Sequence[str], answer: Answer) -> None:
        super().__init__(answer.said())
        self.words = list(words)
        self.answer = answer


def path() -> str:
    """The program: that which the variable CHPC names, or the one of this folder."""
    return os.environ.get("CHPC") or os.path.join(TOP, "chpc")


def shell_status(code: int) -> int:
    """The status as a shell tells it: 128 more than the signal where one ended the program."""
    return code if code >= 0 else 128 - code


def started(
    words: Sequence[str], out: int | None, err: int | None, name: str, variable: str = "CHPC"
) -> subprocess.Popen[bytes]:
    """Starts the program of this name, in place of which the variable may name another."""
    try:
        return subprocess.Popen([name, *words], stdin=subprocess.DEVNULL, stdout=out, stderr=err)
    except OSError as error:
        other = "" if variable in os.environ else f"; the variable {variable} may name a built one elsewhere"
        raise Refusal(f"{name} can't be started: {error.strerror}{other}", 127) from error


def again() -> str:
    """The program for a call that isn't the first one. ./chpc builds itself where its sources are newer, and then
    starts what it has built; after the first call that is there, and is started at once."""
    built = os.path.join(TOP, "crates", "chpc", "out", "chpc")
    return built if _called and "CHPC" not in os.environ and os.access(built, os.X_OK) else path()


def answer(words: Sequence[str]) -> Answer:
    """What the program answers to these words. Where ./chpc builds itself first, what it tells of that is handed on."""
    with started(words, subprocess.PIPE, subprocess.PIPE, again()) as run:
        assert run.stdout is not None and run.stderr is not None
        kept: list[bytes] = []
        reader = threading.Thread(target=keep_lines, args=(run.stderr, kept))
        reader.start()
        out = run.stdout.read()
        reader.join()
        run.wait()
    if run.returncode not in (70, 127, 130):
        _called.append(True)
    return Answer(shell_status(run.returncode), out, b"".join(kept))


def keep_lines(source: BinaryIO, kept: list[bytes]) -> None:
    """Keeps the lines that come; those of a build, which begin with `chpc: `, are written at once instead."""
    for line in source:
        if line.startswith(b"chpc: "):
            sys.stderr.buffer.write(b"\r\x1b[K" * sys.stderr.isatty() + line)
            sys.stderr.buffer.flush()
        else:
            kept.append(line)


def wanted(words: Sequence[str], statuses: Sequence[int] = (0,)) -> Answer:
    """The same, where it has to end with one of these statuses."""
    given = answer(words)
    if given.status not in statuses:
        raise Ended(words, given)
    return given


def hand_on(source: BinaryIO, to: BinaryIO, progress: Progress) -> None:
    """Writes what comes from the program as it comes; where nobody reads it any more, the rest is thrown away."""
    for piece in iter(lambda: source.read1(65536), b""):  # type: ignore[attr-defined]
        progress.clear()
        try:
            to.write(piece)
            to.flush()
        except BrokenPipeError:
            continue


def relay(words: Sequence[str], progress: Progress) -> Answer:
    """Calls the program with the streams of this one. Standard error is kept besides; standard output passes through
    here only where it is a terminal, so that a line of progress can be taken away before."""
    seen = sys.stdout.isatty() and progress.shown
    with started(words, subprocess.PIPE if seen else None, subprocess.PIPE, path()) as run:
        assert run.stderr is not None
        if seen:
            assert run.stdout is not None
            out = threading.Thread(target=hand_on, args=(run.stdout, sys.stdout.buffer, progress))
            out.start()
        kept = []
        for line in run.stderr:
            progress.clear()
            sys.stderr.buffer.write(line)
            sys.stderr.buffer.flush()
            kept.append(line)
        if seen:
            out.join()
        run.wait()
    return Answer(shell_status(run.returncode), b"", b"".join(kept))
