"""The sessions of the companion's pages, typed over recorded answers."""

from __future__ import annotations

import os
import re

from companion.program import TOP
from companion.tests import recorded, sessions
from companion.tests.base import Case

PAGES = ("COMPANION.md", "TUTORIAL.md", "EVENTS.md", "DESIGN-TESTS.md", "DEVICES.md", "LINKING.md")


class Sessions(Case):
    """What the pages show is what comes."""

    def compared(self, page: str) -> None:
        """The sessions of a page come out as it shows."""
        differing = sessions.compare(recorded.stand_in("."), pages=[page])
        self.assertEqual("\n".join(differing), "")

    def test_pages(self) -> None:
        """Each page with sessions has a test of its own here, so that they run side by side."""
        self.assertEqual(sorted(sessions.PAGES), sorted(PAGES))

    def test_sessions_of_companion(self) -> None:
        self.compared("COMPANION.md")

    def test_sessions_of_tutorial(self) -> None:
        self.compared("TUTORIAL.md")

    def test_sessions_of_events(self) -> None:
        self.compared("EVENTS.md")

    def test_sessions_of_design_tests(self) -> None:
        self.compared("DESIGN-TESTS.md")

    def test_sessions_of_devices(self) -> None:
        self.compared("DEVICES.md")

    def test_sessions_of_linking(self) -> None:
        self.compared("LINKING.md")

    def test_page(self) -> None:
        """The page is short, and shows each of the commands."""
        with open(sessions.PAGE, encoding="utf-8") as file:
            page = file.read()
        self.assertLessEqual(page.count("\n"), 250)
        commands = " ".join(it.command for it in sessions.sessions(page))
        for name in ("check", "compile", "simulate", "why", "hunt", "view", "stat", "tree", "lint", "sort"):
            self.assertRegex(commands, rf"\./chpx {name}\b")
        with open(os.path.join(TOP, "docs", "EVENTS.md"), encoding="utf-8") as file:
            more = " ".join(it.command for it in sessions.sessions(file.read()))
        for name in ("events", "why", "cover", "profile", "buffered"):
            self.assertRegex(more, rf"\./chpx {name}\b")
        self.assertIn("nothing is found proves nothing", " ".join(page.replace("**", "").split()))

    def test_house(self) -> None:
        """Each module is below 200 lines, and no line is longer than 120 columns."""
        for folder in ("companion", "companion/tests", "wrapper"):
            for name in sorted(os.listdir(os.path.join(TOP, folder))):
                path = os.path.join(TOP, folder, name)
                if not name.endswith(".py") and name not in ("run", "replay"):
                    continue
                with open(path, encoding="utf-8") as file:
                    lines = file.read().split("\n")
                with self.subTest(name):
                    self.assertLess(len(lines), 201)
                    self.assertEqual([at for at, line in enumerate(lines, 1) if len(line) > 120], [])
                    self.assertFalse([at for at, line in enumerate(lines, 1) if re.search(r"\s$", line)])
