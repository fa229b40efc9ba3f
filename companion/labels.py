"""What the companion's own files are called for people: standard input, say, for the file that holds it."""

from __future__ import annotations

STANDARD_INPUT = "standard input"
_labels: dict[str, str] = {}


def label(path: str, name: str) -> None:
    """Sets what a file is called."""
    _labels[path] = name


def called(path: str) -> str:
    """What a file is called: its own name where it has no other."""
    return _labels.get(path, path)
