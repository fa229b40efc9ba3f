"""The parts of the circuit that `compile` writes for a program with procedures. `expand` tells those of the one in
which each call is a copy; here they are put together of what it tells of programs without calls: one in which each call
is a `skip`, which has as many nodes, and for each procedure one that does what its body does."""

from __future__ import annotations

import re
from dataclasses import replace

from companion import options, program
from companion.chp_tokens import tokens_of
from companion.chp_tree import Expr, Program, Stmt
from companion.parts import Part, Tree, read_tree

OWN = ("sequence", "parallel")  # statements that stand in brackets within others


def split(it: Program, data: bytes) -> tuple[dict[str, Stmt], dict[str, str]]:
    """The procedures' bodies, in which an assignment that reads its own target goes by a variable of its own; and these
    variables, each with the variable that it serves."""
    taken = {token.text for token in tokens_of(data) if token.kind == "name"}
    own: dict[str, str] = {}
    free = (name for name in (f"h{number}" for number in range(len(data))) if name not in taken)

    def halved(stmt: Stmt) -> Stmt:
        if stmt.kind != "through":
            return replace(stmt, children=[halved(child) for child in stmt.children])
        name = next(free)
        own[name] = stmt.name
        first = Stmt("assign", stmt.start, stmt.end, name=name, value=stmt.value)
        return Stmt("sequence", stmt.start, stmt.end, children=[first, replace(stmt, kind="assign", target=name)])

    return {name: halved(body) for name, body in it.procs.items()}, own


def text_of(stmt: Stmt, data: bytes) -> str:
    """A statement without calls, as a text in which each call is a `skip`."""

    def told(value: Expr | None) -> str:
        return data[value.start : value.end].decode("latin-1") if value else ""

    def inner(child: Stmt) -> str:
        return f"({text_of(child, data)})" if child.kind in OWN else text_of(child, data)

    if stmt.kind in ("skip", "call"):
        return "skip"
    if stmt.kind in ("assign", "through"):
        return f"{stmt.name} := {stmt.target or told(stmt.value)}"
    if stmt.kind == "send":
        return f"{stmt.name}!{told(stmt.value)}"
    if stmt.kind == "receive":
        return f"{stmt.name}?{stmt.target}"
    if stmt.kind in OWN:
        return (" ; " if stmt.kind == "sequence" else " || ").join(map(inner, stmt.children))
    if stmt.kind == "loop":
        return f"*[{text_of(stmt.children[0], data)}]"
    arms = [f"{told(guard)} -> {text_of(child, data)}" for guard, child in zip(stmt.guards, stmt.children)]
    return ("*[" if stmt.kind == "again" else "[") + " [] ".join(arms) + "]"


def moved(part: Part, by: int, names: dict[str, str], parent: Part | None) -> Part:
    """A part whose nodes have numbers that are greater by so much, and its request and answer their names by these,
    where they aren't told."""

    def name_of(node: str) -> str:
        return names.get(node) or re.sub(r"^n(\d+)$", lambda it: f"n{int(it[1]) + by}", node)

    made = replace(part, request=name_of(part.request), answer=name_of(part.answer), first=part.first + by)
    made.parent = parent
    made.children = [moved(child, by, names, made) for child in part.children]
    return made


def name_calls(part: Part, stmt: Stmt) -> None:
    """Gives calls, which are skips so far, their kind and the name of the procedure."""
    if stmt.kind == "call":
        part.kind, part.name = "call", stmt.name
    for child, inner in zip(part.children, stmt.children):
        name_calls(child, inner)


def shared_tree(it: Program, data: bytes) -> Tree:
    """The parts of the circuit of a program with procedures in which one body serves all calls."""
    bodies, own = split(it, data)
    widths = {decl.name: decl.width for decl in it.decls}
    lines = [f"{decl.kind} {decl.name} : {decl.width};" for decl in it.decls]
    lines += [f"var {name} : {widths[served]};" for name, served in own.items()]

    def told(body: Stmt) -> Tree:
        name = f"{options.room()}/body.chp"
        options.write(name, "\n".join([*lines, f"begin {text_of(body, data)} end", ""]).encode("latin-1"))
        return read_tree(program.wanted(["expand", name]).text())

    tree = told(it.body)
    at, request = tree.root.first, f"n{tree.root.first}"
    procs = []
    for name, body in bodies.items():
        inner = told(body).root.children[0]
        made = Part("procedure", f"n{at}", "", at, inner.count + 1, name=name)
        made.children = [moved(inner, at + 1 - inner.first, {request: f"n{at}"}, made)]
        made.answer = made.children[0].answer
        procs.append(made)
        at += made.count
    root = moved(tree.root, at - tree.root.first, {}, None)
    name_calls(root.children[0], it.body)
    return Tree(root, tree.blocks, procs)
