"""`link`: one program of several."""

from __future__ import annotations

import os
import re
import shlex
import sys
from collections.abc import Sequence

from companion import options, program
from companion.labels import called
from companion.linking import linked, member
from companion.options import Parser
from companion.program import Refusal
from companion.terminal import Progress

ABOUT = """\
Prints one program that does what several programs do side by side. A channel that is `in` in one
and `out` in another one becomes an internal one; channels of one program alone stay as they are.
Variables, internal channels and procedures whose names several programs have get new ones. Lines
`//#line ..` say from which file the lines come, and messages, `why` and the like tell places there.

With --line one text is handed on, in which lines `#line N "FILE"` as `m4 -s` writes them become
such marks. A text that isn't accepted is refused as by `chpc check`."""
HASH_LINE = re.compile(rb'^#line (\d+)(?: "([^"]*)")?$')


def marked(data: bytes) -> bytes:
    """A text with marks in place of the lines `#line N "FILE"`; where such a line names no file, that of the one
    before is meant."""
    lines, name = [], b""
    for line in data.split(b"\n"):
        told = HASH_LINE.match(line)
        if told:
            name = told[2] or name
            line = b'//#line %s "%s"' % (told[1], name)
        lines.append(line)
    return b"\n".join(lines)


def put(data: bytes) -> None:
    """Writes bytes as they are to standard output."""
    stream = getattr(sys.stdout, "buffer", None)
    if stream is None:
        sys.stdout.write(data.decode("utf-8", "replace"))
    else:
        stream.write(data)


def main(words: Sequence[str]) -> int:
    """Runs the command."""
    made = Parser("link", ABOUT)
    made.add_argument("files", metavar="FILE", nargs="+", help="the programs")
    made.add_argument("--line", action="store_true", help="turns the lines #line of one text into marks")
    given = made.parse_args(words)
    if given.line and len(given.files) > 1:
        raise Refusal("--line takes one text", 2)
    if given.line:
        put(marked(options.read(given.files[0])))
        return 0
    with Progress("link"):
        for name in given.files:
            program.wanted(["check", name])
        members = [member(name, options.read(name)) for name in given.files]
        names = [shlex.quote(os.path.basename(called(name))) for name in given.files]
        text = linked(members, f"// made by chpx link {' '.join(names)}")
        name = os.path.join(options.room(), "linked.chp")
        options.write(name, text.encode("latin-1"))
        program.wanted(["check", name])
    put(text.encode("latin-1"))
    return 0
