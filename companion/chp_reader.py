"""How programs are read, by the grammar of docs/LANGUAGE.md."""

from __future__ import annotations

from companion.chp_tokens import Unread, number_of, tokens_of
from companion.chp_tree import CLOSING, OPENING, Decl, Program, Reader, Stmt


class Statements(Reader):
    """A reader of statements. Where `as_loops` is set, what stands in `*[ ]` is taken for a statement, even if a `->`
    follows, as in `*[L?x -> S]`, which is refused at that."""

    as_loops = False

    def group(self, kind: str, joint: str, members: list[Stmt]) -> Stmt:
        """Several members as one statement; one member alone is that member."""
        if len(members) == 1:
            return members[0]
        return Stmt(kind, members[0].opened, members[-1].closed, children=members)

    def parallel(self) -> Stmt:
        """Branches between `||`."""
        members = [self.sequence()]
        while self.has("||"):
            members.append(self.sequence())
        return self.group("parallel", "||", members)

    def sequence(self) -> Stmt:
        """Statements between `;`."""
        members = [self.both()]
        while self.has(";"):
            members.append(self.both())
        return self.group("sequence", ";", members)

    def both(self) -> Stmt:
        """Statements between `,`."""
        members = [self.atom()]
        while self.has(","):
            members.append(self.atom())
        return self.group("parallel", ",", members)

    def atom(self) -> Stmt:
        """One statement."""
        start = self.now.start
        if self.has("skip"):
            return Stmt("skip", start, self.tokens[self.at - 1].end)
        if self.has("call"):
            name = self.take("name")
            return Stmt("call", start, name.end, name=name.text)
        if self.has("("):
            inner = self.parallel()
            inner.brackets = (start, self.take(")").end)
            return inner
        if self.has("*"):
            self.take("[")
            return self.bracket("again", start) if self.has_arms() else self.loop(start)
        if self.has("["):
            return self.bracket("select", start)
        name = self.take("name")
        sign = self.take(":=", "!", "?").kind
        if sign == "?":
            target = self.take("name")
            return Stmt(
                "receive", start, target.end, name=name.text, target=target.text, target_at=(target.start, target.end)
            )
        value = self.expr()
        if sign == "!":
            return Stmt("send", start, value.end, name=name.text, value=value)
        kind = "through" if any(use.name == name.text for use in value.uses) else "assign"
        return Stmt(kind, start, value.end, name=name.text, value=value)

    def has_arms(self) -> bool:
        """Whether the bracket that was opened has guards: a `->` of its own."""
        depth = 0
        for token in () if self.as_loops else self.tokens[self.at :]:
            if token.kind == "->" and depth == 0:
                return True
            depth += (token.kind in OPENING) - (token.kind in CLOSING)
            if depth < 0:
                return False
        return False

    def loop(self, start: int) -> Stmt:
        """What stands in `*[ ]`."""
        body = self.parallel()
        end = self.take("]").end
        return Stmt("loop", start, end, children=[body])

    def bracket(self, kind: str, start: int) -> Stmt:
        """Arms between `[]`."""
        made = Stmt(kind, start, start)
        while True:
            made.guards.append(self.expr())
            self.take("->")
            made.children.append(self.parallel())
            if not self.has("[]"):
                break
        made.end = self.take("]").end
        return made


def read_program(data: bytes) -> Program:
    """Reads a program; raises Unread where this reading can't follow it."""
    return program_of(Statements(tokens_of(data)))


def declarations(data: bytes) -> list[Decl]:
    """The declarations of channels and variables, up to where this reading can't follow the text."""
    found: list[Decl] = []
    try:
        heads(Statements(tokens_of(data)), found)
    except Unread:
        pass
    return found


def heads(reader: Statements, decls: list[Decl]) -> dict[str, Stmt]:
    """Reads what comes up to `begin`: adds the declarations to those given, and tells the procedures' bodies."""
    procs: dict[str, Stmt] = {}
    while not reader.has("begin"):
        kind = reader.take("in", "out", "chan", "var", "proc").kind
        name = reader.take("name")
        if kind == "proc":
            reader.take("=")
            procs[name.text] = reader.atom()
        else:
            reader.take(":")
            width = number_of(reader.take("number").text) or 0
            first = number_of(reader.take("number").text) or 0 if kind == "var" and reader.has("=") else 0
            decls.append(Decl(kind, name.text, width, name.start, name.end, first))
        reader.take(";")
    return procs


def program_of(reader: Statements) -> Program:
    """The program that the reader's tokens are."""
    decls: list[Decl] = []
    procs = heads(reader, decls)
    body = reader.parallel()
    reader.take("end")
    reader.take("eof")
    return Program(decls, procs, body)
