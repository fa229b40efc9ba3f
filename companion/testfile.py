"""Test files, which stand beside programs: how they are read."""

from __future__ import annotations

import os
import re
from dataclasses import replace

from companion import filekinds, options
from companion.forms import PROGRAM
from companion.places import Text
from companion.program import Refusal
from companion.testcases import Case
from companion.testlines import FORMS, Words, put_values

NAME = re.compile(r"[A-Za-z][A-Za-z0-9_]*$")


def read_cases(name: str) -> list[Case]:
    """The cases of a test file. Lines before the first `case` are those of each case."""
    text = Text(name, options.read(name))
    common = Case(name, 1, options.stem(name), f"{os.path.splitext(name)[0]}.chp")
    now, own, cases = common, set[str](), []
    for number in range(1, len(text.starts) + 1):
        words = Words(text, number)
        if not words.all:
            continue
        if words.all[1:2] == ["="] and NAME.match(words.all[0]):
            put_values(now, words, own)
        elif words.all[0] == "case":
            copies = {name: dict(getattr(common, name)) for name in ("script", "wanted", "places")}
            now, own = replace(common, line=number, title=" ".join(words.rest()), **copies), set()
            cases.append(now)
        elif words.all[0] in FORMS:
            FORMS[words.all[0]](now, words, own)
        else:
            kind = filekinds.kind_of(text.data)
            if kind == PROGRAM:
                raise Refusal(f"{name}: this looks like a program; its test file stands beside it and ends in .test", 8)
            raise words.fault(0, f"a line begins with `case`, NAME =, {', '.join(FORMS)}")
    for case in cases or [common]:
        if case.device and case.script:
            raise Refusal(f"{name}:{case.line}: a case has a script or a device, and this one has both", 8)
    return cases or [common]
