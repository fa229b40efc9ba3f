"""Which word of a refused line is meant, by the number of the cause. The proved program tells the line; the word is
found here."""

from __future__ import annotations

import re

from companion.places import Text

FIRST, SECOND, LAST = (51, 53, 61, 63), (47, 48), (42, 43, 46)


def words_of(line: bytes) -> list[tuple[int, int]]:
    """The stretches of a line's words, with what stands before a comment."""
    code = line.split(b"//", 1)[0]
    return [it.span() for it in re.finditer(rb"[^ \t]+", code)]


def value(word: bytes) -> int:
    """The number that a word is, or -1."""
    if re.fullmatch(rb"0x[0-9A-Fa-f]{1,16}", word):
        return int(word, 16)
    return int(word) if word.isdigit() else -1


def unknown_node(line: bytes, rules: Text) -> tuple[int, int] | None:
    """The first name in a rule that is that of no node."""
    nodes = {it.split(b" ")[1] for it in rules.data.split(b"\n") if it.startswith(b"node ") and it.count(b" ") == 2}
    for it in re.finditer(rb"[A-Za-z][A-Za-z0-9_.]*", line):
        if it.start() > 0 and it[0] not in nodes:
            return it.span()
    return None


def too_wide(line: bytes, rules: Text) -> tuple[int, int] | None:
    """The first value that doesn't fit into the bits of the line's channel."""
    words = words_of(line)
    name = line[slice(*words[0])].rstrip(b":")
    width = re.search(rb"^(?:in|out|chan) " + re.escape(name) + rb" (\d+)$", rules.data, re.M)
    for start, end in words[1:] if width else []:
        if width and value(line[start:end]) >= 1 << int(width[1]):
            return start, end
    return None


def stretch(line: bytes, number: int, rules: Text | None) -> tuple[int, int]:
    """The bytes from..to of a line that a cause speaks of: the whole line where it can't be told."""
    words = words_of(line)
    found: tuple[int, int] | None = None
    if number == 41 and rules and line.startswith(b"rule "):
        found = unknown_node(line, rules)
    elif number == 52 and rules and words:
        found = too_wide(line, rules)
    elif number == 62:
        found = next((it for it in words if value(line[slice(*it)]) > 1_000_000), None)
    elif number in FIRST and words:
        found = words[0]
    elif number in SECOND and len(words) > 1:
        found = words[1]
    elif number in LAST and words:
        found = words[-1]
    if found is None:
        whole = line.rstrip(b"\r")
        found = (len(whole) - len(whole.lstrip()), len(whole))
    start, end = found
    return start, end - line[start:end].endswith(b":")


def hint(line: bytes, number: int, rules: Text | None) -> str:
    """What to write in place of a script's line, where its habit is known; else nothing."""
    text = line.decode("latin-1").split("//")[0].strip()
    if number == 51 and rules:
        there = re.findall(r"^(in|out) (\S+) ", rules.data.decode("latin-1"), re.M)
        return "one of " + ", ".join(f"`{name}` ({kind})" for kind, name in there) if 0 < len(there) <= 12 else ""
    if number == 60 and re.search(r"\d[.\w:]|:", text.partition(" ")[2] or text):
        return "`NODE UP DOWN`: a node and two whole numbers, between blanks, without a unit, a colon or a fraction"
    if number != 50:
        return ""
    name, colon, rest = text.partition(":")
    found = re.match(r"([A-Za-z]\w*)\s+[\d]", text)
    if text.startswith(("#", ";", "--", "/*")):
        return "`// ..`: a comment begins with `//`"
    if re.match(r"[A-Za-z]\w*\s*:=", text):
        return f"`{name.strip()}: {rest.lstrip('=').strip()}`: values stand behind a colon"
    if re.search(r"[\[\](){}]", rest):
        values = " ".join(re.findall(r"0x[0-9A-Fa-f]+|[0-9]+", rest))
        return f"`{name.strip()}: {values}`: values stand between blanks, without brackets"
    if re.search(r"\w\s*:", rest):
        return "one line for each channel"
    if not colon and found:
        return f"`{found[1]}: {text[len(found[1]):].strip()}`: a colon stands right behind the channel's name"
    if name != name.rstrip():
        return f"`{name.rstrip()}:{rest}`: the colon stands right behind the channel's name"
    if "=" in text and not colon:
        return "`NAME: 1 2 3`: values stand behind a colon; what is expected belongs into a file for `chpx test`"
    if "," in rest:
        return f"`{name}: {' '.join(rest.replace(',', ' ').split())}`: blanks stand between values, and no commas"
    words = rest.split()
    if "all" in words and len(words) > 1:
        return f"`{name}: all`, or one number: how many values are received"
    if rules and re.search(rb"^out " + re.escape(name.encode()) + rb" \d+$", rules.data, re.M) and len(words) != 1:
        return (f"`{name}: {len(words)}`: of an `out` channel a script says how many values are received; "
                "which ones are expected belongs into a file for `chpx test`")
    odd = next((word for word in words if value(word.encode()) < 0 and word != "all"), "")
    if re.fullmatch(r"-\d+", odd):
        return f"a number from 0 on in place of `{odd}`: values are unsigned"
    return f"a number, in decimal or behind `0x`, in place of `{odd}`" if odd else ""
