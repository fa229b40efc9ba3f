"""What could stand at the place of a syntax fault, and which brackets are open there."""

from __future__ import annotations

from companion.chp_expr import COMPARISONS
from companion.chp_reader import Statements, program_of
from companion.chp_tokens import Token, Unread, tokens_of
from companion.chp_tree import CLOSING, OPENING

EXPRESSION = {"number", "name", "{", "(", "~"}
STATEMENT = {"skip", "call", "(", "*", "[", "name"}
OPERATORS = {"|", "^", "&", "+", "-"}
DECLARATION = {"in", "out", "chan", "var", "proc"}
WORDS = {"name": "a name", "number": "a number", "eof": "the end of the text"}


def at_fault(data: bytes, start: int) -> tuple[list[str], list[Token]]:
    """What could have stood at the byte at which a text is refused, and the brackets that are open there; nothing where
    this reading stops elsewhere."""
    try:
        tokens = tokens_of(data)
    except Unread:
        return [], []
    for as_loops in (False, True):
        reader = Statements(tokens)
        reader.as_loops = as_loops
        try:
            program_of(reader)
        except Unread:
            pass
        if tokens[reader.far].start == start:
            return in_words(reader.asked), still_open(tokens[: reader.far])
    return [], []


def in_words(asked: set[str]) -> list[str]:
    """Kinds of tokens as a person says them."""
    left, said = set(asked), []
    for name, kinds in (("a statement", STATEMENT), ("an expression", EXPRESSION), ("a declaration", DECLARATION)):
        if kinds <= asked and not (name == "an expression" and "skip" in asked):
            said.append(name)
            left -= kinds
    if OPERATORS <= asked:
        is_compared = not set(COMPARISONS) <= asked
        said.append("an operator" if not is_compared else "an operator other than a second comparison")
        left -= OPERATORS | set(COMPARISONS)
    return said + [WORDS.get(kind, f"`{kind}`") for kind in sorted(left)]


def still_open(tokens: list[Token]) -> list[Token]:
    """The brackets among these tokens that nothing has closed."""
    found: list[Token] = []
    for token in tokens:
        if token.kind in OPENING:
            found.append(token)
        elif token.kind in CLOSING and found:
            found.pop()
    return found


def joined(parts: list[str]) -> str:
    """Parts as `a, b or c`."""
    return " or ".join([", ".join(parts[:-1]), parts[-1]] if len(parts) > 1 else parts)
