"""A model of the rounds of a program under a script, beside the proved ones of `chpc run`: by the definitions of
crates/chp_meaning/specs/{Terms,Steps,Rounds}.antt, step by step.

It goes by statements as companion/chp_reader.py reads them, without calls. What is left of a statement is a term: nothing where it is
finished, `active` with a statement, `sequence` with the term of its first member and the statements behind that, or `parallel` with
those of its branches. A place is the path to an active statement in it.
"""
import os
import sys
from dataclasses import dataclass
from typing import NamedTuple

sys.path.insert(0, os.path.dirname(os.path.dirname(os.path.abspath(__file__))))

from companion.chp_tokens import number_of  # noqa: E402
from companion.widths import own  # noqa: E402

FIRST = "first"  # the way into the first member of a sequence; that into a branch is its number


class Term(NamedTuple):
    """What is left of a statement."""
    kind: str
    parts: tuple  # the statement; the first member's term, and the others; the branches' terms


def opened(stmt):
    """A statement as a term."""
    if stmt.kind == "sequence":
        return turned(stmt.children)
    return together([opened(child) for child in stmt.children]) if stmt.kind == "parallel" else Term("active", (stmt,))


def turned(members):
    """The members of a sequence as a term."""
    return followed(opened(members[0]), members[1:]) if members else None


def followed(term, members):
    """A term with what comes behind it in a sequence."""
    return Term("sequence", (term, members)) if term and members else term or turned(members)


def together(branches):
    """Branches, which are finished once each of them is."""
    return Term("parallel", tuple(branches)) if any(branches) else None


def active(term):
    """The places of a term in their order, each with its statement."""
    if term and term.kind == "active":
        yield (), term.parts[0]
    if term and term.kind == "sequence":
        yield from (((FIRST, *place), stmt) for place, stmt in active(term.parts[0]))
    if term and term.kind == "parallel":
        for number, branch in enumerate(term.parts):
            yield from (((number, *place), stmt) for place, stmt in active(branch))


def with_left(term, place, left):
    """The term in which this is left of the statement at a place."""
    if not place:
        return left
    if place[0] == FIRST:
        return followed(with_left(term.parts[0], place[1:], left), term.parts[1])
    return together([with_left(it, place[1:], left) if at == place[0] else it for at, it in enumerate(term.parts)])


def applied(op, width, a, b):
    """An operator on two numbers of a width."""
    of = {"&": a & b, "|": a | b, "^": a ^ b, "+": a + b, "-": a - b, "=": a == b, "!=": a != b, "<": a < b, "<=": a <= b, ">": a > b,
          ">=": a >= b}
    return int(of[op]) % (1 << width)


def value_of(node, width, widths, store):
    """The value of an expression of which so many bits are wanted."""
    if node.kind == "number":
        return node.value
    if node.kind == "name":
        return store[node.use.name]
    if node.kind == "bits":
        return store[node.use.name] >> node.use.low & (1 << node.use.high - node.use.low + 1) - 1
    if node.kind == "not":
        return (1 << width) - 1 - value_of(node.parts[0], width, widths, store)
    if node.kind == "join":
        made = 0
        for part in node.parts:
            made = made << own(part, widths) | value_of(part, own(part, widths), widths, store)
        return made
    inner = width
    if node.kind == "compare":
        inner = own(node.parts[0], widths) or own(node.parts[1], widths)
    made = value_of(node.parts[0], inner, widths, store)
    for op, part in zip(node.ops, node.parts[1:], strict=True):
        made = applied(op, inner, made, value_of(part, inner, widths, store))
    return made


def offers_of(script, kinds):
    """What a script says of the channels that lead outside: the values that are sent, or how many are taken, None where all are."""
    offers = {name: [] if kind == "in" else None for name, kind in kinds.items() if kind != "chan"}
    for line in script.decode("latin-1").split("\n"):
        name, _, words = line.partition("//")[0].partition(":")
        if name.strip():
            numbers = [number_of(word) for word in words.split()]
            offers[name] = numbers if kinds[name] == "in" else numbers[0]
    return offers


@dataclass
class State:
    """A configuration: what is left, the values of variables, what the environment still does, and what has passed."""
    term: Term | None
    store: dict
    offers: dict
    passed: dict


class Rounds:
    """The rounds of a program under a script, one behind the other. It is given the kinds of the channels, the widths of all names,
    the first values of variables, and the body."""

    def __init__(self, kinds, widths, firsts, body, script):
        self.kinds, self.widths = kinds, widths
        self.state = State(opened(body), dict(firsts), offers_of(script, kinds), {name: [] for name in kinds})

    def value(self, value, width):
        """That of an expression."""
        return value_of(value.tree, width, self.widths, self.state.store)

    def receiver(self, channel):
        """The first place at which a receive on the channel waits, with its statement."""
        return next((it for it in active(self.state.term) if (it[1].kind, it[1].name) == ("receive", channel)), None)

    def is_open(self, stmt):
        """Whether one guard of a statement is true; of a guarded repetition also whether none is."""
        count = sum(self.value(guard, 1) for guard in stmt.guards)
        return count == 1 or (count == 0 and stmt.kind == "again")

    def is_enabled(self, stmt):
        """Whether an active statement has a step."""
        kind = self.kinds.get(stmt.name)
        if stmt.kind == "send":
            return self.receiver(stmt.name) is not None if kind == "chan" else self.state.offers[stmt.name] != 0
        if stmt.kind == "receive":
            return kind == "in" and bool(self.state.offers[stmt.name])
        return self.is_open(stmt) if stmt.kind in ("select", "again") else True

    def leave(self, place, left=None):
        """This is left of the statement at a place."""
        self.state.term = with_left(self.state.term, place, left)

    def send(self, place, stmt):
        """The step of a send: a receive waits for the value, or the environment takes it."""
        value = self.value(stmt.value, self.widths[stmt.name])
        self.leave(place)
        if self.kinds[stmt.name] == "chan":
            other, receive = self.receiver(stmt.name)
            self.leave(other)
            self.state.store[receive.target] = value
        elif self.state.offers[stmt.name] is not None:
            self.state.offers[stmt.name] -= 1
        self.state.passed[stmt.name].append(value)

    def receive(self, place, stmt):
        """The step of a receive from the environment."""
        value, *self.state.offers[stmt.name] = self.state.offers[stmt.name]
        self.leave(place)
        self.state.store[stmt.target] = value
        self.state.passed[stmt.name].append(value)

    def choose(self, place, stmt):
        """The step of a selection or of a guarded repetition."""
        branches = [branch for guard, branch in zip(stmt.guards, stmt.children, strict=True) if self.value(guard, 1)]
        left = opened(branches[0]) if branches else None
        self.leave(place, followed(left, [stmt]) if branches and stmt.kind == "again" else left)

    def take(self, place, stmt):
        """Makes the step of an active statement."""
        if stmt.kind in ("assign", "through"):
            value = self.value(stmt.value, self.widths[stmt.name])
            self.leave(place)
            self.state.store[stmt.name] = value
        elif stmt.kind == "skip":
            self.leave(place)
        elif stmt.kind == "loop":
            self.leave(place, followed(opened(stmt.children[0]), [stmt]))
        else:
            {"send": self.send, "receive": self.receive, "select": self.choose, "again": self.choose}[stmt.kind](place, stmt)

    def enabled(self):
        """The places of the next round's steps, in their order, each with its statement."""
        return [(place, stmt) for place, stmt in active(self.state.term) if self.is_enabled(stmt)]

    def round(self):
        """Makes a round."""
        for place, stmt in self.enabled():
            self.take(place, stmt)
