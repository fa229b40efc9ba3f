"""The completion of docs/shells, as bash and, where it is installed, fish make use of it."""

from __future__ import annotations

import os
import shutil
import subprocess
import unittest

from companion.tests.base import TOP, Case

SHELLS = os.path.join(TOP, "docs", "shells")
# for a line what is offered behind it, in a folder with the files net.prs and net.script
LINES: list[tuple[str, list[str]]] = [
    ("chpx lin", ["link", "lint"]),
    ("chpc lin", []),
    ("chpx --u", ["--unproved"]),
    ("chpx --unproved simu", ["simulate"]),
    ("chpx --unproved simulate net.prs --or", ["--order"]),
    ("chpx simulate net.prs --order ", ["lowest", "newest", "oldest", "random"]),
    ("chpx simulate net.prs --delays ", ["net.prs", "net.script"]),
    ("chpx simulate net.prs --steps ", []),
    ("chpx check net.p", ["net.prs"]),
    ("chpx bench net.prs --device s", ["sink", "source"]),
    ("chpc bench net.prs --d", []),
    ("chpx why net.prs net.script --j", ["--json"]),
]
# what bash does with a line, whose words it breaks at blanks and at `=`
IN_BASH = """
source "$1"
compopt() { :; }
line="$2"
read -ra COMP_WORDS <<< "${line//=/ = }"
[[ "$line" == *' ' ]] && COMP_WORDS+=('')
COMP_CWORD=$(( ${#COMP_WORDS[@]} - 1 ))
"_${COMP_WORDS[0]}"
printf '%s\\n' "${COMPREPLY[@]}"
"""


class Shells(Case):
    """What is offered behind some lines."""

    def setUp(self) -> None:
        super().setUp()
        self.write("net.prs", ""), self.write("net.script", "")

    def offered(self, *words: str) -> list[str]:
        """What a shell prints, a line for each offer: these without what is said of them."""
        ran = subprocess.run(words, stdin=subprocess.DEVNULL, capture_output=True, text=True, check=True)
        return sorted(line.split("\t")[0] for line in ran.stdout.splitlines() if line)

    def test_bash(self) -> None:
        for line, wanted in [*LINES, ("chpx simulate net.prs --order=n", ["newest"])]:
            with self.subTest(line):
                found = self.offered("bash", "-c", IN_BASH, "bash", os.path.join(SHELLS, "chpx.bash"), line)
                self.assertEqual(found, wanted)

    @unittest.skipUnless(shutil.which("fish"), "fish isn't installed")
    def test_fish(self) -> None:
        for line, wanted in LINES:
            with self.subTest(line):
                typed = f"source {SHELLS}/chpx.fish; complete -C '{line}'"
                self.assertEqual(self.offered("fish", "--no-config", "-c", typed), wanted)

    @unittest.skipUnless(shutil.which("zsh"), "zsh isn't installed")
    def test_zsh(self) -> None:
        self.assertEqual(self.offered("zsh", "-n", os.path.join(SHELLS, "_chpx")), [])
