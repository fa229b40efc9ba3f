"""What the pages say of causes: the tables of docs/LANGUAGE.md, docs/FORMATS.md and the one of statuses, which are the
one place where these sentences stand."""

from __future__ import annotations

import functools
import glob
import os
import re
from collections.abc import Iterator
from dataclasses import dataclass, field

from companion.program import TOP

LANGUAGE, FORMATS, COMMANDS = "docs/LANGUAGE.md", "docs/FORMATS.md", "docs/COMMANDS.md"
# what is said in place of these sentences where only the companion was copied somewhere
NO_PAGES = "(more is told where the folder docs lies beside companion, which it doesn't here)"


@dataclass(frozen=True)
class Table:
    """A table of a page: the heading that it stands under, its columns' names, and its rows."""

    heading: str
    columns: list[str]
    rows: list[list[str]]

    def get(self, row: list[str], column: str) -> str:
        """A row's cell in the column of this name, or nothing where there is no such column."""
        return row[self.columns.index(column)] if column in self.columns else ""


@dataclass
class Cause:
    """A cause of refusal: its number and name, when it comes, what to do instead, and the page that says so."""

    number: int
    name: str
    page: str
    when: list[str] = field(default_factory=list)
    instead: list[str] = field(default_factory=list)


@dataclass(frozen=True)
class Wrote:
    """A row of the table "you wrote, write instead": its first cell is its key."""

    key: str
    instead: str


def cells(line: str) -> list[str]:
    """The cells of a table's line; a bar behind a backslash is none between cells."""
    inner = line.strip().removeprefix("|").removesuffix("|")
    return [cell.strip().replace("\\|", "|") for cell in re.split(r"(?<!\\)\|", inner)]


def plain(text: str) -> str:
    """A cell's text without the marks of links and of emphasis."""
    return re.sub(r"\[([^\]]+)\]\([^)]*\)", r"\1", text).replace("*", "") if "](" in text else text


@functools.cache
def tables(page: str) -> list[Table]:
    """The tables of a page; none where it isn't there."""
    try:
        with open(os.path.join(TOP, page), encoding="utf-8") as file:
            lines = file.read().split("\n")
    except OSError:
        return []
    found: list[Table] = []
    heading, at, is_code = "", 0, False
    while at < len(lines):
        line = lines[at]
        is_code ^= line.startswith("```")
        if line.startswith("#") and not is_code:
            heading = line.lstrip("# ")
        elif not is_code and line.startswith("|") and re.fullmatch(
            r"[|\- :]+", lines[at + 1] if at + 1 < len(lines) else ""
        ):
            table = Table(heading, cells(line), [])
            at += 2
            while at < len(lines) and lines[at].startswith("|"):
                table.rows.append([plain(cell) for cell in cells(lines[at])])
                at += 1
            found.append(table)
            continue
        at += 1
    return found


@functools.cache
def causes() -> dict[int, Cause]:
    """Each cause of refusal by its number."""
    found: dict[int, Cause] = {}
    for page in (LANGUAGE, FORMATS):
        for table in tables(page):
            if table.columns[0] != "Number":
                continue
            for row in table.rows:
                number, _, name = row[0].partition(" ")
                if not number.isdigit():
                    continue
                cause = found.setdefault(int(number), Cause(int(number), name or table.get(row, "Name"), page))
                when = table.get(row, "Comes exactly where") or table.get(row, "When") or table.get(row, "Cause")
                cause.when.append(when)
                instead = table.get(row, "What to write instead") or table.get(row, "What to do")
                if instead and instead not in cause.instead:
                    cause.instead.append(instead)
    for table in tables(LANGUAGE):
        for row in table.rows if "A way out" in table.columns else []:
            told = re.search(r"chp: (\d+) ", " ".join(row))
            if told and int(told[1]) in found:
                found[int(told[1])].instead.append(table.get(row, "A way out"))
    return found


def every_table() -> Iterator[Table]:
    """The tables of all pages."""
    names = glob.glob(os.path.join(TOP, "docs", "*.md"))
    for page in ("README.md", *sorted(f"docs/{os.path.basename(name)}" for name in names)):
        yield from tables(page)


@functools.cache
def statuses() -> dict[int, tuple[str, str]]:
    """For each status what happened and what to do."""
    found: dict[int, tuple[str, str]] = {}
    for table in every_table():
        if table.columns[0] != "Status" or "What to do" not in table.columns:
            continue
        for row in table.rows:
            for number in row[0].split(","):
                if number.strip().isdigit():
                    found[int(number)] = (row[1], row[2])
    return found


@functools.cache
def wrote() -> dict[str, Wrote]:
    """The rows of "you wrote, write instead" and of the same for procedures, by their first cells."""
    found = {}
    for table in tables(LANGUAGE):
        for row in table.rows if table.columns[0] in ("You wrote", "A procedure written otherwise") else []:
            found[row[0]] = Wrote(row[0], table.get(row, "Write instead"))
    return found
