"""A program with a one-place buffer on a channel, as `compile --buffer` makes it: its text, and its statements with
their places in the text without the buffer. Calls are replaced by copies of their bodies, as they are there."""

from __future__ import annotations

from collections.abc import Iterator
from dataclasses import dataclass, replace

from companion import options, program
from companion.calls import split
from companion.chp_reader import read_program
from companion.chp_tokens import Token, tokens_of
from companion.chp_tree import Decl, Program, Stmt

Edit = tuple[int, int, bytes]  # bytes from..to, and what comes in their place


@dataclass(frozen=True)
class Buffer:
    """A buffer: the channel, the new channel and the new variable, and their width."""

    channel: str
    copy: str
    slot: str
    width: int

    def text(self) -> str:
        """The statement of the buffer."""
        return f"*[{self.channel}?{self.slot}; {self.copy}!{self.slot}]"


def asked(name: str, channel: str) -> None:
    """Lets chpc say whether the program is accepted and has the channel inside of it."""
    script = f"{options.room()}/no.script"
    options.write(script, "")
    program.wanted(["run", name, script, "--rounds", "0", f"--buffer={channel}"])


def buffer_on(it: Program, channel: str) -> Buffer:
    """The buffer on a channel, with the least number that is free."""
    names = {decl.name for decl in it.decls}
    number = next(at for at in range(len(names) + 1) if not names & {f"B{at}", f"b{at}"})
    return Buffer(channel, f"B{number}", f"b{number}", it.of_kind("chan")[channel].width)


def applied(data: bytes, start: int, end: int, edits: list[Edit]) -> bytes:
    """A stretch of bytes with the edits that lie in it."""
    out, at = [], start
    for begin, stop, text in sorted(edits):
        if start <= begin and stop <= end:
            out += [data[at:begin], text]
            at = stop
    return b"".join([*out, data[at:end]])


def proc_spans(tokens: list[Token]) -> Iterator[tuple[str, int, int, int, int]]:
    """Of each procedure's declaration the name, its bytes from..to, and those of its body."""
    for at, token in enumerate(tokens):
        if token.kind != "proc":
            continue
        stop, depth = at + 3, 0
        while depth or tokens[stop].kind != ";":
            depth += (tokens[stop].kind in "([{") - (tokens[stop].kind in ")]}")
            stop += 1
        yield tokens[at + 1].text, token.start, tokens[stop].end, tokens[at + 3].start, tokens[stop - 1].end


def receives_moved(body: Stmt, buffer: Buffer) -> Iterator[Edit]:
    """The receives on the channel, which become some on its copy."""
    for stmt in body.walk():
        if stmt.kind == "receive" and stmt.name == buffer.channel:
            yield stmt.start, stmt.start + len(stmt.name), buffer.copy.encode()


def buffered_text(data: bytes, channel: str) -> bytes:
    """The text with a buffer on a channel that is declared by `chan`."""
    it, tokens = read_program(data), tokens_of(data)
    buffer, widths = buffer_on(it, channel), {decl.name: decl.width for decl in it.decls}
    _, own = split(it, data)
    hidden, bodies, edits = iter(own), {}, []
    for name, start, end, first, last in proc_spans(tokens):
        inner = list(receives_moved(it.procs[name], buffer))
        for stmt in it.procs[name].walk():
            if stmt.kind == "through" and stmt.value:
                slot = next(hidden)
                inner.append((stmt.start, stmt.value.start, f"({slot} := ".encode()))
                inner.append((stmt.end, stmt.end, f"; {stmt.name} := {slot})".encode()))
        body = applied(data, first, last, inner)
        bodies[name] = body if body.startswith(b"(") else b"(" + body + b")"
        edits.append((start, end + (data[end : end + 1] == b"\n"), b""))
    edits += receives_moved(it.body, buffer)
    edits += [(stmt.start, stmt.end, bodies[stmt.name]) for stmt in it.body.walk() if stmt.kind == "call"]
    begin = next(at for at, token in enumerate(tokens) if token.kind == "begin")
    lines = [f"var {slot} : {widths[served]};" for slot, served in own.items()]
    lines += [f"chan {buffer.copy} : {buffer.width};", f"var {buffer.slot} : {buffer.width};"]
    front, first, last = tokens[begin].start, tokens[begin + 1].start, tokens[-3].end
    edits.append((front, front, ("\n" * (data[:front][-1:] not in b"\n") + "\n".join(lines) + "\n").encode()))
    whole = applied(data, first, last, edits)
    head = applied(data, 0, first, [edit for edit in edits if edit[1] <= first])
    return head + b"(" + whole + f")\n  || {buffer.text()}".encode() + data[last:]


def buffered_program(it: Program, channel: str) -> Program:
    """The statements with the buffer: those of the program keep their places, and calls are their bodies. The buffer's
    have none: they begin at -1."""
    buffer = buffer_on(it, channel)

    def copied(stmt: Stmt) -> Stmt:
        if stmt.kind == "call":
            return copied(it.procs[stmt.name])
        moved = stmt.kind == "receive" and stmt.name == channel
        return replace(
            stmt, name=buffer.copy if moved else stmt.name, children=[copied(child) for child in stmt.children]
        )

    take = Stmt("receive", -1, -1, name=channel, target=buffer.slot)
    give = Stmt("send", -1, -1, name=buffer.copy, target=buffer.slot)
    loop = Stmt("loop", -1, -1, children=[Stmt("sequence", -1, -1, children=[take, give])])
    body = Stmt("parallel", it.body.start, it.body.end, children=[copied(it.body), loop])
    decls = [Decl("chan", buffer.copy, buffer.width, -1, -1), Decl("var", buffer.slot, buffer.width, -1, -1)]
    return Program([*it.decls, *decls], {}, body)


def told(stmt: Stmt) -> str:
    """The text of a statement of a buffer."""
    if stmt.kind == "receive":
        return f"{stmt.name}?{stmt.target}"
    if stmt.kind == "send":
        return f"{stmt.name}!{stmt.target}"
    inner = [told(child) for child in stmt.children]
    return f"*[{inner[0]}]" if stmt.kind == "loop" else "; ".join(inner)
