"""Answers as JSON, for other programs."""

from __future__ import annotations

import json


def put(value: object) -> None:
    """Prints a value as JSON, a line for each member."""
    print(json.dumps(value, indent=1, ensure_ascii=False))
