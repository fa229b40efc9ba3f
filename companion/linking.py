"""How several programs become one: channels of one name that are `in` in one and `out` in another become internal, and
all other names are renamed apart."""

from __future__ import annotations

import re
from dataclasses import dataclass, field

from companion.chp_reader import read_program
from companion.chp_tokens import Token, Unread, tokens_of
from companion.chp_tree import Program
from companion.options import stem
from companion.places import Text
from companion.program import Refusal

MOST = 24  # characters of a name


@dataclass
class Member:
    """A program with its text and tokens, and the new names of its channels and variables, and of its procedures."""

    text: Text
    tree: Program
    tokens: list[Token]
    names: dict[str, str] = field(default_factory=dict)
    procs: dict[str, str] = field(default_factory=dict)

    def refusal(self, name: str, why: str) -> Refusal:
        """A refusal at the declaration of a name."""
        decl = next(it for it in self.tree.decls if it.name == name)
        return Refusal(f"{self.text.told(decl.start)}: {why}", 1)

    def renamed(self, first: int, last: int) -> str:
        """The text from a token up to another one, with the new names."""
        data, at, found = self.text.data, self.tokens[first].start, []
        for number in range(first, last):
            token = self.tokens[number]
            is_proc = number > 0 and self.tokens[number - 1].kind in ("proc", "call")
            new = (self.procs if is_proc else self.names).get(token.text, token.text)
            found.append(data[at : token.start].decode("latin-1") + (new if token.kind == "name" else token.text))
            at = token.end
        return "".join(found)


def member(name: str, data: bytes) -> Member:
    """Reads a program, which chpc accepts."""
    text = Text(name, data)
    try:
        return Member(text, read_program(data), tokens_of(data))
    except Unread as error:
        why = f"chpc accepts this program, but it can't be read here: {error}"
        raise Refusal(f"{text.told(error.at)}: {why}") from error


def joined(members: list[Member]) -> set[str]:
    """The channels that two programs have in common, one as `in` and the other as `out`."""
    ends: dict[str, tuple[Member, str, int]] = {}
    found: set[str] = set()
    for it in members:
        for name, decl in it.tree.of_kind("in", "out").items():
            if name not in ends:
                ends[name] = (it, decl.kind, decl.width)
                continue
            other, kind, width = ends[name]
            where = other.text.told(next(at.start for at in other.tree.decls if at.name == name))
            if name in found or kind == decl.kind:
                many = "a third program has it" if name in found else f"it is `{kind}` in both"
                raise it.refusal(name, f"{name} can't be linked with {where}: {many}")
            if width != decl.width:
                raise it.refusal(name, f"{name} has {decl.width} bits here, and {width} at {where}")
            found.add(name)
    return found


def new_name(name: str, front: str, taken: set[str]) -> str:
    """A name that isn't taken, made of this one and of what its program is called."""
    front = re.sub(r"\W", "_", front)
    tries = [f"{front}_{name}"] if front[:1].isalpha() else []
    tries += [f"{name[: MOST - 4]}_{number}" for number in range(2, 1000)]
    return next(it for it in tries if len(it) <= MOST and it not in taken)


def rename(members: list[Member]) -> set[str]:
    """Gives names that several programs have, but for channels to the outside, new ones; tells the joined channels."""
    inside = joined(members)
    outside = {name for it in members for name in it.tree.of_kind("in", "out")}
    locals_of = [set(it.tree.of_kind("chan", "var")) for it in members]
    taken = outside | set().union(*locals_of)
    taken_procs = {name for it in members for name in it.tree.procs}
    for it, own in zip(members, locals_of):
        others = outside.union(*(names for other, names in zip(members, locals_of) if other is not it))
        for name in (decl.name for decl in it.tree.decls if decl.name in own & others):
            it.names[name] = new_name(name, stem(it.text.path), taken)
            taken.add(it.names[name])
        shared = {name for other in members if other is not it for name in other.tree.procs}
        for name in it.tree.procs:
            if name in shared:
                it.procs[name] = new_name(name, stem(it.text.path), taken_procs)
                taken_procs.add(it.procs[name])
    return inside


class Lines:
    """The lines of the linked text, with marks where a line isn't the one behind the last one of its file."""

    def __init__(self) -> None:
        self.lines: list[str] = []
        self.next: tuple[str, int] = ("", 0)

    def own(self, line: str) -> None:
        """A line that comes of no file."""
        self.lines += ["//#end", line] if self.next[0] else [line]
        self.next = ("", 0)

    def put(self, it: Member, first: int, last: int, text: str) -> None:
        """The text of some tokens of a program."""
        start = it.tokens[first].start
        place = it.text.place(start)
        is_first = not it.text.data[it.text.starts[place.line - 1] : start].strip()
        if self.next != (it.text.name, place.line) or not is_first:
            column = start - it.text.starts[place.line - 1] + 1
            self.lines.append(f'//#line {place.line}:{column} "{it.text.name}"')
        self.lines += [" " * (place.column - 1) * is_first + text] if "\n" not in text else text.split("\n")
        end = it.text.place(it.tokens[last - 1].end)
        self.next = (it.text.name, end.line + 1)


def declarations(it: Member, inside: set[str], done: set[str], lines: Lines) -> int:
    """Puts the declarations of a program; those of joined channels once, as `chan`. Tells the token behind them."""
    at = 0
    while it.tokens[at].kind != "begin":
        last = at
        while it.tokens[last].kind != ";" or depth_at(it, at, last):
            last += 1
        name, kind = it.tokens[at + 1].text, it.tokens[at].kind
        is_joined = kind in ("in", "out") and name in inside
        if not is_joined or name not in done:
            text = it.renamed(at, last + 1)
            lines.put(it, at, last + 1, "chan" + text[len(kind) :] if is_joined else text)
        done |= {name} if is_joined else set()
        at = last + 1
    return at


def depth_at(it: Member, first: int, last: int) -> int:
    """How many brackets are open between two tokens."""
    kinds = [token.kind for token in it.tokens[first:last]]
    return sum(kind in ("(", "[", "{") for kind in kinds) - sum(kind in (")", "]", "}") for kind in kinds)


def linked(members: list[Member], head: str) -> str:
    """The text of one program that does what all do side by side."""
    inside = rename(members)
    lines, done = Lines(), set[str]()
    lines.own(head)
    begins = [declarations(it, inside, done, lines) for it in members]
    for number, (it, begin) in enumerate(zip(members, begins)):
        lines.own(") || (" if number else "begin (")
        last = len(it.tokens) - 2
        lines.put(it, begin + 1, last, it.renamed(begin + 1, last))
    lines.own(") end")
    return "\n".join(lines.lines) + "\n"
