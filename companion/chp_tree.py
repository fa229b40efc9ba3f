"""The statements of a program with their places in the text, read tolerantly beside the proved reading of chpc."""

from __future__ import annotations

from collections.abc import Iterator
from dataclasses import dataclass, field

from companion.chp_expr import Node, Use, expression
from companion.chp_tokens import Token, Unread

OPENING, CLOSING = ("(", "[", "{"), (")", "]", "}")


@dataclass(frozen=True)
class Expr:
    """An expression: the bytes from..to of its own tokens, what it reads, and its tree."""

    start: int
    end: int
    uses: tuple[Use, ...]
    tree: Node


@dataclass
class Stmt:
    """A statement. `kind` is that of its part (`skip`, `assign`, `through`, `send`, `receive`, `sequence`, `parallel`,
    `select`, `again`, `loop`) or `call`. `name` is the channel, the variable that is assigned, or the procedure;
    `target` the variable of a receive, and `target_at` its place; `value` the expression; `guards` those of the arms,
    whose statements are the children."""

    kind: str
    start: int
    end: int
    name: str = ""
    target: str = ""
    target_at: tuple[int, int] | None = None
    value: Expr | None = None
    guards: list[Expr] = field(default_factory=list)
    children: list[Stmt] = field(default_factory=list)
    brackets: tuple[int, int] | None = None  # the bytes from..to with the `( )` round it, if there are any

    @property
    def opened(self) -> int:
        """Where it begins, with its `(`."""
        return self.brackets[0] if self.brackets else self.start

    @property
    def closed(self) -> int:
        """Where it ends, with its `)`."""
        return self.brackets[1] if self.brackets else self.end

    def walk(self) -> Iterator[Stmt]:
        """The statement and all in it, in order of the text."""
        yield self
        for child in self.children:
            yield from child.walk()


@dataclass(frozen=True)
class Decl:
    """A declaration: `in`, `out`, `chan` or `var`, with name, width and the place of the name, and a variable's first
    value."""

    kind: str
    name: str
    width: int
    start: int
    end: int
    first: int = 0


@dataclass
class Program:
    """A program: its declarations, its procedures' bodies by name, and its body."""

    decls: list[Decl]
    procs: dict[str, Stmt]
    body: Stmt

    def of_kind(self, *kinds: str) -> dict[str, Decl]:
        """The declarations of some kinds, by name."""
        return {it.name: it for it in self.decls if it.kind in kinds}

    def statements(self) -> Iterator[Stmt]:
        """All statements, those of procedures too."""
        for body in (*self.procs.values(), self.body):
            yield from body.walk()


class Reader:
    """Reads tokens one behind the other. `far` is the furthest token that it has come to, and `asked` the kinds of
    tokens that it would have gone on with there."""

    def __init__(self, tokens: list[Token]) -> None:
        self.tokens = tokens
        self.at = self.far = 0
        self.asked: set[str] = set()

    @property
    def now(self) -> Token:
        """The token that comes next."""
        return self.tokens[self.at]

    def sees(self, *kinds: str) -> bool:
        """Whether a token of one of these kinds comes next."""
        if self.at > self.far:
            self.far, self.asked = self.at, set()
        if self.at == self.far:
            self.asked.update(kinds)
        return self.now.kind in kinds

    def take(self, *kinds: str) -> Token:
        """Goes over a token of one of these kinds."""
        token = self.now
        if not self.sees(*kinds):
            raise Unread(f"{' or '.join(kinds)} was expected", token.start)
        self.at += 1
        return token

    def has(self, kind: str) -> bool:
        """Whether a token of this kind comes next; if so it is taken."""
        found = self.sees(kind)
        self.at += found
        return found

    def expr(self) -> Expr:
        """An expression."""
        first = self.at
        tree = expression(self)
        uses = tuple(node.use for node in tree.walk() if node.use)
        return Expr(self.tokens[first].start, self.tokens[self.at - 1].end, uses, tree)
