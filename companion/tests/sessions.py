"""The sessions of the companion's pages: commands that a person types, and what comes back, typed again and compared.

A session is a block of code marked `session`. A line behind `$ ` is a command for a shell; lines behind `> ` go on with
it; what follows is what it prints on both streams, and at last `[N]` where it ends with a status other than 0. The
sessions of a page are typed one after the other in one folder that has the files of `examples`, with `./chpx` and
`./chpc` there.
"""

from __future__ import annotations

import os
import re
import shutil
import subprocess
import tempfile
from collections.abc import Sequence
from dataclasses import dataclass

from companion.program import TOP

PAGE = os.path.join(TOP, "docs", "COMPANION.md")
PAGES = ("COMPANION.md", "TUTORIAL.md", "EVENTS.md", "DESIGN-TESTS.md", "DEVICES.md", "LINKING.md")


@dataclass(frozen=True)
class Typed:
    """A command with the line of the page that it begins at, and what comes back."""

    line: int
    command: str
    wanted: str


def sessions(text: str) -> list[Typed]:
    """The commands of a page."""
    found: list[Typed] = []
    inside, command, wanted, begun = False, "", [], 0
    for number, line in enumerate([*text.split("\n"), "```"], 1):
        if inside and (line.startswith("$ ") or line.startswith("```")) and command:
            found.append(Typed(begun, command, "".join(f"{it}\n" for it in wanted)))
            command = ""
        if line.startswith("```"):
            inside = line.startswith("```session")
        elif inside and line.startswith("$ "):
            command, wanted, begun = line[2:], [], number
        elif inside and line.startswith("> ") and not wanted:
            command += "\n" + line[2:]
        elif inside:
            wanted.append(line)
    return found


def typed(it: Typed, folder: str, program: str, more: dict[str, str]) -> str:
    """What comes back from a command."""
    where = dict(os.environ, CHPC=program, NO_COLOR="1", **more)
    run = subprocess.run(
        ["bash", "-c", it.command],
        cwd=folder,
        env=where,
        stdin=subprocess.DEVNULL,
        stdout=subprocess.PIPE,
        stderr=subprocess.STDOUT,
        check=False,
    )
    status = f"[{run.returncode}]\n" if run.returncode else ""
    out = run.stdout.decode("utf-8", "replace")
    return re.sub(r"(?m)[ \t]+$", "", out + ("" if out.endswith("\n") or not out else "\n") + status)


def compare(program: str, more: dict[str, str] | None = None, pages: Sequence[str] = PAGES) -> list[str]:
    """Types all sessions of some pages with a program; tells where they differ, as lines."""
    lines = []
    for page in pages:
        lines += compare_page(f"docs/{page}", program, more or {})
    return lines


def compare_page(name: str, program: str, more: dict[str, str]) -> list[str]:
    """The same of one page."""
    lines = []
    with open(os.path.join(TOP, name), encoding="utf-8") as file:
        page = file.read()
    with tempfile.TemporaryDirectory() as folder:
        for example in os.listdir(os.path.join(TOP, "examples")):
            shutil.copy(os.path.join(TOP, "examples", example), folder)
        for link, target in (("chpx", os.path.join(TOP, "chpx")), ("chpc", program)):
            os.symlink(target, os.path.join(folder, link))
        for it in sessions(page):
            came = typed(it, folder, program, more)
            if came != it.wanted:
                lines.append(f"{name}:{it.line}: {it.command}\n--- the page says\n{it.wanted}--- it is\n{came}")
    return lines
