"""`check --json`: whether a program is accepted, and if not why and where, for other programs."""

from __future__ import annotations

from collections.abc import Sequence

from companion import causes, hints, options, program, textfaults
from companion.as_json import put
from companion.explain import TEXT_FAULT
from companion.places import Text
from companion.program import Ended, Refusal


def place(text: Text, start: int, end: int) -> dict[str, int]:
    """A stretch of bytes, with the line and the column of its first one."""
    at = text.place(start)
    return {"from": start, "to": end, "line": at.line, "column": at.column}


def fault_of(text: Text, said: str) -> dict[str, object]:
    """A refusal's cause, its places, and what to write instead."""
    told = TEXT_FAULT.match(said)
    assert told is not None
    number, spans = int(told[1]), [(int(told[3]), int(told[4]))]
    if told[5]:
        spans.append((int(told[5]), int(told[6])))
    cause = causes.causes().get(number)
    found = textfaults.of(text.data, number, *spans[0])
    instead = hints.hint(text.data, number, *spans[0]) or found.instead
    return {
        "number": number,
        "name": told[2],
        "what": found.what or ("; or ".join(cause.when) if cause else ""),
        "places": [place(text, *span) for span in spans],
        "expected": found.wanted,
        "open": [place(text, *span) for span in found.opened],
        "instead": [instead] if instead else cause.instead if cause else [],
    }


def main(words: Sequence[str]) -> int:
    """Runs the command: its status is that of `chpc check`."""
    if len(words) != 1:
        raise Refusal("check --json takes one file", 2)
    answer = program.answer(["check", words[0]])
    if answer.status == 0:
        put({"file": words[0], "accepted": True, "nodes": int(answer.text().split()[-1])})
    elif answer.status == 1 and TEXT_FAULT.match(answer.said()):
        text = Text(words[0], options.read(words[0]))
        put({"file": words[0], "accepted": False, "fault": fault_of(text, answer.said())})
    else:
        raise Ended(["check", words[0]], answer)
    return answer.status
