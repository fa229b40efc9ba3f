"""Which statement of the text each part is: the text as the companion reads it, walked beside the tree of parts that
chpc tells, and both checked against the names that the rules tell. Where they don't fit, no place is told."""

from __future__ import annotations

from dataclasses import dataclass, field

from companion import options, program
from companion.buffers import asked, buffered_program, buffered_text, told
from companion.calls import shared_tree
from companion.chp_reader import read_program
from companion.chp_tokens import Unread
from companion.chp_tree import Program, Stmt
from companion.parts import Part, Tree, tree_of
from companion.places import Text
from companion.program import Refusal
from companion.rules import Net, read_net


@dataclass
class Fit:
    """For each part its statement; or, where `why` isn't empty, none, and the reason. Parts of a buffer have no
    statement in the text, but in `made` its text."""

    text: Text
    program: Program | None = None
    statements: dict[Part, Stmt] = field(default_factory=dict)
    why: str = ""
    made: dict[Part, str] = field(default_factory=dict)
    buffer: str | None = None

    def place(self, part: Part) -> str:
        """FILE:LINE:COLUMN of a part, or that it is the buffer's; empty where neither is known."""
        if part in self.made:
            return f"the buffer on {self.buffer}"
        statement = self.statements.get(part)
        return self.text.told(statement.start) if statement else ""

    def source(self, part: Part, most: int = 60) -> str:
        """The text of a part's statement on one line, cut to so many characters; empty where there is none."""
        statement = self.statements.get(part)
        return self.cut(statement.start, statement.end, most) if statement else self.made.get(part, "")

    def cut(self, start: int, end: int, most: int = 60) -> str:
        """A stretch of the text on one line."""
        lines = self.text.data[start:end].decode("utf-8", "replace").split("\n")
        words = " ".join(line.split("//")[0] for line in lines).split()
        text = " ".join(words)
        return text if len(text) <= most else text[: most - 3] + " .."


class Misfit(Exception):
    """The text and the parts aren't of one form."""


def fitted(data: bytes, name: str, tree: Tree, net: Net | None, buffer: str | None = None) -> Fit:
    """Fits a program's text, with a buffer on a channel, to its parts and, where there is a net, to its rules."""
    fit = Fit(Text(name, data), buffer=buffer)
    try:
        fit.program = read_program(data)
        if buffer is not None:
            fit.program = buffered_program(fit.program, buffer)
        for part in tree.procs:
            pair(fit.program.procs[part.name], part.children[0], fit.statements)
        pair(fit.program.body, tree.root.children[0], fit.statements)
        if net is not None:
            for part, statement in fit.statements.items():
                compare_name(part, statement, tree, net)
        fit.made = {part: told(it) for part, it in fit.statements.items() if it.start < 0}
        for part in fit.made:
            del fit.statements[part]
    except (Unread, Misfit, IndexError, KeyError) as error:
        fit.statements.clear()
        why = "its text as it is read here and its parts don't fit"
        fit.why = f"no places in {fit.text.name} are told, since {why}: {error}"
    return fit


def with_buffer(name: str, channel: str) -> str:
    """The name of a file that has the program with a buffer on a channel."""
    asked(name, channel)
    path = f"{options.room()}/buffered.chp"
    options.write(path, buffered_text(options.read(name), channel))
    return path


def tree_for(name: str, net: Net, buffer: str | None = None) -> Tree:
    """The parts of the program in a file, as its net has them: of one with procedures with bodies that calls share, but
    with a buffer on a channel with copies of them."""
    name = with_buffer(name, buffer) if buffer is not None else name
    tree, data = tree_of(name), options.read(name)
    try:
        it = read_program(data)
        tree = shared_tree(it, data) if it.procs else tree
    except Unread:
        pass
    if tree.count() != len([node for node in net.first if node != "reset"]):
        raise Refusal(f"which nodes the parts of {name} have can't be told: its text can't be read here")
    return tree


def circuit_of(name: str, buffer: str | None = None) -> tuple[Tree, Net, Fit]:
    """The parts of the program in a file, its net, and how its text fits them; with a buffer on a channel."""
    more = [f"--buffer={buffer}"] if buffer is not None else []
    net = read_net(program.wanted(["compile", name, *more]).out.decode("latin-1"), name)
    tree = tree_for(name, net, buffer)
    return tree, net, fitted(options.read(name), name, tree, net, buffer)


def pair(statement: Stmt, part: Part, found: dict[Part, Stmt]) -> None:
    """Pairs a statement with a part, and all in them. In the body of a procedure an assignment that reads its own
    target is a sequence of two parts."""
    if statement.kind == "through" and part.kind == "sequence" and len(part.children) == 2:
        found.update(dict.fromkeys((part, *part.children), statement))
        return
    if statement.kind != part.kind or len(statement.children) != len(part.children):
        raise Misfit(f"a {statement.kind} of {len(statement.children)} against a {part.kind} of {len(part.children)}")
    found[part] = statement
    for inner, child in zip(statement.children, part.children):
        pair(inner, child, found)


def compare_name(part: Part, statement: Stmt, tree: Tree, net: Net) -> None:
    """Compares the name of a channel or a variable with the one that the part's rule tells, where it tells one."""
    told = name_of(part, tree, net)
    is_own = part.kind == "assign" and statement.kind == "through"
    if told and told != statement.name and not is_own:
        raise Misfit(f"{statement.name} against {told}")


def name_of(part: Part, tree: Tree, net: Net) -> str:
    """The channel of a send or a receive, or the variable of an assignment, as the rules tell it: the answer rises
    where the request is high and so is the acknowledge, or the top of the variable's completion tree. Empty where there
    is none."""
    if part.kind not in ("send", "receive", "assign", "through"):
        return ""
    terms = net.terms(part.answer, "+")
    others = [node for node, _ in terms[0] if node != part.request] if terms else []
    if part.kind in ("send", "receive"):
        return next((node.removesuffix(".a") for node in others if node.endswith(".a")), "")
    for block in tree.variables():
        if any(block.first <= net.numbers.get(node, -1) < block.first + block.count for node in others):
            return block.name
    return ""
