"""Colour and lines of progress, both on a terminal only."""

from __future__ import annotations

import os
import sys
import threading
import time
from types import TracebackType
from typing import TextIO

RED, BOLD, DIM, PLAIN = "\x1b[31m", "\x1b[1m", "\x1b[2m", "\x1b[0m"


def has_colour(stream: TextIO) -> bool:
    """Whether a stream is a terminal that takes colours; the variable NO_COLOR takes them away."""
    return stream.isatty() and "NO_COLOR" not in os.environ and os.environ.get("TERM") != "dumb"


class Paint:
    """Colours for one stream, or none."""

    def __init__(self, stream: TextIO) -> None:
        self.on = has_colour(stream)

    def _in(self, code: str, text: str) -> str:
        """The text in a colour, where there are colours."""
        return f"{code}{text}{PLAIN}" if self.on and text else text

    def bold(self, text: str) -> str:
        """For what is read first."""
        return self._in(BOLD, text)

    def red(self, text: str) -> str:
        """For what is wrong."""
        return self._in(RED + BOLD, text)

    def dim(self, text: str) -> str:
        """For what stands round it."""
        return self._in(DIM, text)


class Progress:
    """A line on standard error that tells what is being done, from the first second on. It is shown on a terminal only,
    and taken away at the end. `shown` is whether there is a terminal."""

    def __init__(self, doing: str) -> None:
        self.doing = doing
        self.count = ""
        self.shown = sys.stderr.isatty()
        self._lock = threading.Lock()
        self._ended = threading.Event()
        self._is_there = False
        self._thread = threading.Thread(target=self._tell, daemon=True)

    def __enter__(self) -> Progress:
        if self.shown:
            self._thread.start()
        return self

    def __exit__(
        self, kind: type[BaseException] | None, error: BaseException | None, trace: TracebackType | None
    ) -> None:
        self._ended.set()
        if self.shown:
            self._thread.join()
            self.clear()

    def clear(self) -> None:
        """Takes the line away, so that something else can be written."""
        with self._lock:
            if self._is_there:
                sys.stderr.write("\r\x1b[K")
                sys.stderr.flush()
                self._is_there = False

    def _tell(self) -> None:
        """Writes the line again and again."""
        began = time.monotonic()
        while not self._ended.wait(1.0 if not self._is_there else 0.2):
            with self._lock:
                sys.stderr.write(f"\r\x1b[Kchpx: {self.doing}{self.count}, {time.monotonic() - began:.0f} s")
                sys.stderr.flush()
                self._is_there = True
