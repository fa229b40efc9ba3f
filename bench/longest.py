"""A model of how long rounds of a program take its circuit at most, beside the proved calls: how many moves, one behind the other, its
nodes make at most between the steps of one round and those of the next (`longest`), and until it has passed what so many rounds under a
script pass (`rounds_sum`).

It goes by the tree of a program, in which each call is a copy of its procedure's body. An assignment that reads its own target
(`through`) is two in a body, by a hidden variable (`halves`).
"""
import os
import sys
from dataclasses import replace
from typing import NamedTuple

sys.path.insert(0, os.path.dirname(os.path.dirname(os.path.abspath(__file__))))

from companion.chp_expr import Node, Use  # noqa: E402
from companion.chp_reader import read_program  # noqa: E402
from companion.chp_tree import Expr, Stmt  # noqa: E402
from companion.widths import own  # noqa: E402
from rounds import Rounds  # noqa: E402

BITWISE, RIPPLING, LESS, EQUAL = ("&", "|", "^"), ("+", "-"), ("<", "<=", ">", ">="), ("=", "!=")


def height(leaves):
    """That of a completion tree."""
    return (leaves - 1).bit_length()


def rippled(left, right):
    """The depths of bits of which each waits for the carry of the one below."""
    made, carried = [], 0
    for a, b in zip(left, right, strict=True):
        carried = 1 + max(a, b, carried)
        made.append(carried)
    return made


def conjoined(bits):
    """The depth of the conjunction of bits, from the lowest on."""
    depth = bits[0]
    for bit in bits[1:]:
        depth = 1 + max(depth, bit)
    return depth


def operated(op, left, right):
    """The depths of the bits of an operator's result."""
    pairs = [1 + max(a, b) for a, b in zip(left, right, strict=True)]
    if op in BITWISE:
        return pairs
    if op in EQUAL:
        return [conjoined(pairs)]
    return rippled(left, right) if op in RIPPLING else rippled(left, right)[-1:]


def bits_of(node, width, widths):
    """The depths of an expression's bits, the lowest first: how many gates, one behind the other, from the request on."""
    if node.kind in ("number", "name", "bits"):
        count = width if node.kind == "number" else own(node, widths)
        return [1] * count
    if node.kind == "not":
        return bits_of(node.parts[0], width, widths)
    if node.kind == "join":
        return [bit for part in reversed(node.parts) for bit in bits_of(part, own(part, widths), widths)]
    inner = width
    if node.kind == "compare":
        inner = own(node.parts[0], widths) or own(node.parts[1], widths)
    made = bits_of(node.parts[0], inner, widths)
    for op, part in zip(node.ops, node.parts[1:], strict=True):
        made = operated(op, made, bits_of(part, inner, widths))
    return made


class Way(NamedTuple):
    """So many moves, one behind the other, from the step of one statement to that of another; from power-up, or to the end, where there
    is none."""

    start: Stmt | None
    end: Stmt | None
    length: int


def first_name(stmt):
    """Where the first name stands in a statement's text, if one does."""
    if stmt.name:
        return (stmt.start, stmt.start + len(stmt.name))
    for place, child in enumerate(stmt.children):
        reads = [node for node in stmt.guards[place].tree.walk() if node.use] if stmt.guards else []
        if found := (reads[0].start, reads[0].start + len(reads[0].use.name)) if reads else first_name(child):
            return found
    return None


def placed(word, stmt):
    """A word, and behind it the place of the statement's first name, if it has one."""
    at = first_name(stmt)
    return f"{word} at {at[0]}..{at[1]}" if at else word


def point(stmt, none):
    """How chp_pace tells where a way begins or ends."""
    return placed("assign" if stmt.kind == "halves" else stmt.kind, stmt) if stmt else none


class Model:
    """The bound of a program, and of each statement the parts of it. `let_go` is for how long the request of a statement is high
    once it has answered. Where `halved`, all assignments that read their own target are two, as those of bodies are: to a hidden
    variable as wide, and from that."""

    def __init__(self, text, halved=False):
        program = read_program(text)
        self.widths = {decl.name: decl.width for decl in program.decls}
        self.kinds = {decl.name: decl.kind for decl in program.decls if decl.kind != "var"}
        self.firsts = {decl.name: decl.first for decl in program.decls if decl.kind == "var"}
        self.body = self.inlined(program.body, program.procs, halved)
        self.fall()

    def inlined(self, stmt, procs, is_split):
        """The statement with a copy of its body for each call, and with assignments that read their own target as two, if they are
        split."""
        if stmt.kind == "call":
            return self.inlined(procs[stmt.name], procs, True)
        kind = "halves" if is_split and stmt.kind == "through" else stmt.kind
        return replace(stmt, kind=kind, children=[self.inlined(child, procs, is_split) for child in stmt.children])

    def depth(self, value, width):
        """That of an expression."""
        return max(bits_of(value.tree, width, self.widths))

    def own_depth(self, stmt):
        """That of what a statement sends or assigns."""
        return self.depth(stmt.value, self.widths[stmt.name])

    def guards(self, stmt):
        """The depth of the guards."""
        return max(self.depth(guard, 1) for guard in stmt.guards)

    def inner(self, stmt, let_go):
        """The statements within one, each with how long its answer is up until its request is down."""
        last = len(stmt.children) - 1
        of_kind = {"select": let_go + 3, "again": 4, "loop": 1}
        for place, child in enumerate(stmt.children):
            is_last = stmt.kind == "sequence" and place == last
            yield child, let_go + 2 * last if is_last else of_kind.get(stmt.kind, 2)

    def sites(self, stmt, let_go=2):
        """The statements without another one in them, each with how long its request is high once it has answered."""
        if not stmt.children:
            yield stmt, let_go
        for inner, its in self.inner(stmt, let_go):
            yield from self.sites(inner, its)

    def rails_fall(self, channel):
        """From a step on a channel to the fall of its rails."""
        if self.kinds[channel] == "in":
            return 1
        sends = (its + self.own_depth(stmt) + 2 for stmt, its in self.sites(self.body) if (stmt.kind, stmt.name) == ("send", channel))
        return max(sends, default=0)

    def written(self, stmt):
        """The variable that a statement writes, if it does."""
        return {"assign": stmt.name, "through": stmt.name, "halves": stmt.name, "receive": stmt.target}.get(stmt.kind)

    def write_holds(self, stmt, its):
        """How long the rails are high by which a statement writes."""
        if stmt.kind == "assign":
            return its + self.own_depth(stmt) + 2
        return its + 5 if stmt.kind in ("through", "halves") else max(self.rails[stmt.name], its + 1) + 2

    def fall(self):
        """Works out when lines fall: rails of channels, rails by which variables are written, and the answers of both ends of
        channels."""
        self.rails = {channel: self.rails_fall(channel) for channel in self.kinds}
        self.writes = {name: 0 for name in self.widths}
        for stmt, its in self.sites(self.body):
            if (name := self.written(stmt)) is not None:
                self.writes[name] = max(self.writes[name], self.write_holds(stmt, its))
        self.ends = {channel: self.rails[channel] + 2 for channel in self.kinds}
        for stmt, _ in self.sites(self.body):
            if stmt.kind == "receive":
                clears = self.writes[stmt.target] + 4 + self.height_of(stmt.target)
                self.ends[stmt.name] = max(self.ends[stmt.name], clears)

    def height_of(self, name):
        """Of the completion tree over so many bits."""
        return height(self.widths[name])

    def first(self, stmt):
        """From the request of a statement to its first step."""
        if stmt.kind in ("skip", "loop"):
            return 1
        if stmt.kind == "assign":
            return self.own_depth(stmt) + 4 + self.height_of(stmt.name)
        if stmt.kind == "halves":
            return self.own_depth(stmt) + 5 + self.height_of(stmt.name)
        if stmt.kind == "through":
            return 2 * self.own_depth(stmt) + 17 + 3 * self.height_of(stmt.name)
        if stmt.kind == "send":
            return self.own_depth(stmt) + (2 if self.kinds[stmt.name] == "out" else 8 + self.height_of(stmt.name))
        if stmt.kind == "receive":
            return (8 if self.kinds[stmt.name] == "in" else 7) + self.height_of(stmt.target)
        if stmt.kind == "sequence":
            return 1 + self.first(stmt.children[0])
        if stmt.kind == "parallel":
            return 1 + max(map(self.first, stmt.children))
        return (2 if stmt.kind == "select" else 3) + self.guards(stmt)

    def low(self, stmt, let_go):
        """From the last step of a statement to the fall of its answer."""
        if stmt.kind in ("skip", "loop"):
            return let_go + 1
        if stmt.kind in ("assign", "through", "halves"):
            return self.writes[stmt.name] + 2 + self.height_of(stmt.name)
        if stmt.kind in ("send", "receive"):
            return self.ends[stmt.name]
        if stmt.kind == "again":
            return let_go + 7 + self.guards(stmt)
        inner = list(self.inner(stmt, let_go))
        if stmt.kind == "sequence":
            return self.low(*inner[-1])
        if stmt.kind == "parallel":
            return max(self.low(*it) for it in inner) + 3 + let_go + 2 * height(len(inner))
        return 1 + max(let_go + 3, *(self.low(*it) for it in inner))

    def first_step(self, stmt):
        """The statement whose step is the first one of a statement: of a parallel composition the one that is farthest off."""
        if stmt.kind == "sequence":
            return self.first_step(stmt.children[0])
        return self.first_step(max(stmt.children, key=self.first)) if stmt.kind == "parallel" else stmt

    def last_step(self, stmt, let_go):
        """The statement whose step is the last one: of branches that of the one whose answer falls last."""
        if stmt.kind not in ("sequence", "parallel", "select"):
            return stmt
        inner = list(self.inner(stmt, let_go))
        return self.last_step(*(inner[-1] if stmt.kind == "sequence" else max(inner, key=lambda it: self.low(*it))))

    def to_next(self, stmt, inner, place):
        """From the last step of a member of a sequence to the first one of what follows it."""
        following = inner[place + 1][0]
        length = self.low(*inner[place]) + 1 + self.first(following) + (place + 2 < len(inner))
        return Way(self.last_step(*inner[place]), self.first_step(following), length)

    def branch_ways(self, stmt, let_go):
        """Those within a selection or a repetition."""
        inner = list(self.inner(stmt, let_go))
        for it in inner:
            yield Way(stmt, self.first_step(it[0]), 3 + self.guards(stmt) + self.first(it[0]))
            yield from self.ways(*it)
        if stmt.kind == "again":
            last = max(inner, key=lambda it: self.low(*it))
            yield Way(self.last_step(*last), stmt, max(4, self.low(*last)) + 4 + self.guards(stmt))

    def ways(self, stmt, let_go):
        """The ways within a statement from the steps of one round to those of the next, in the order of the text."""
        inner = list(self.inner(stmt, let_go))
        if stmt.kind == "halves":
            # from the first half's step until its rails have fallen, then the bits' nodes and its answer; to that of the second
            yield Way(stmt, stmt, self.own_depth(stmt) + 12 + 2 * self.height_of(stmt.name))
        if stmt.kind in ("select", "again"):
            yield from self.branch_ways(stmt, let_go)
            return
        if stmt.kind == "loop":
            yield Way(stmt, self.first_step(stmt.children[0]), self.first(stmt.children[0]))
        for place, it in enumerate(inner):
            yield from self.ways(*it)
            if stmt.kind == "sequence" and place + 1 < len(inner):
                yield self.to_next(stmt, inner, place)
        if stmt.kind == "loop":
            yield Way(self.last_step(*inner[0]), stmt, self.low(*inner[0]) + 1)

    def within(self, stmt, let_go):
        """How long the longest way within a statement is."""
        return max((way.length for way in self.ways(stmt, let_go)), default=0)

    def longest_way(self):
        """The first one of the longest ways."""
        begin = Way(None, self.first_step(self.body), 2 + self.first(self.body))
        end = Way(self.last_step(self.body, 2), None, self.low(self.body, 2) + 2)
        return max([begin, *self.ways(self.body, 2), end], key=lambda way: way.length)

    def longest(self):
        """How long the longest way is."""
        return self.longest_way().length

    def loops(self):
        """The loops in the order of the text, each with how long the longest way within it is."""
        return [(stmt, self.within(stmt, 2)) for stmt in self.body.walk() if stmt.kind == "loop"]


class Phases(Model):
    """For how many moves those go on, one behind the other, that follow a step: its phase, by crates/round_time/specs/Phases.antt. Here an
    assignment in two halves is two statements. `let_go` is as above, and `down` how many moves follow the fall of a statement's answer."""

    def inlined(self, stmt, procs, is_split):
        made = super().inlined(stmt, procs, is_split)
        return self.in_two(made) if made.kind == "halves" else made

    def in_two(self, stmt):
        """An assignment that reads its own target as two, by a variable of its own, which all copies of it have."""
        hidden = f"{stmt.name} of {stmt.start}"
        self.widths[hidden], self.firsts[hidden] = self.widths[stmt.name], 0
        read = Expr(stmt.start, stmt.end, (Use(hidden),), Node("name", stmt.start, stmt.end, use=Use(hidden)))
        halves = [replace(stmt, kind="assign", name=hidden), replace(stmt, kind="assign", value=read)]
        return replace(stmt, kind="sequence", value=None, children=halves)

    def begun(self, stmt, place):
        """From the request of the members of a sequence from a place on to their first step."""
        return self.first(stmt.children[place]) + (place + 1 < len(stmt.children))

    def downs(self, stmt, let_go, down):
        """How many moves follow the fall of the answer of each statement within one."""
        count, tree = len(stmt.children), height(len(stmt.children))
        if stmt.kind == "sequence":
            return [1 + (self.begun(stmt, place) - 1) for place in range(1, count)] + [down]
        if stmt.kind == "again":
            return [3 + self.guards(stmt)] * count
        return [{"parallel": 1 + tree + let_go + 2 + tree + down, "select": 1 + down}.get(stmt.kind, 0)] * count

    def contexts(self, stmt, let_go=2, down=1):
        """The statements that have a step, each in its context, but for loops, whose step doesn't depend on it."""
        if stmt.kind not in ("sequence", "parallel", "loop"):
            yield stmt, let_go, down
        for (inner, its), its_down in zip(self.inner(stmt, let_go), self.downs(stmt, let_go, down), strict=True):
            yield from self.contexts(inner, its, its_down)

    def greatest(self, of, **wanted):
        """The greatest number of those statements that have these kinds and names, or 0."""
        found = (it for it in self.contexts(self.body) if all(getattr(it[0], key) in values for key, values in wanted.items()))
        return max((of(*it) for it in found), default=0)

    def acked(self, channel):
        """How many moves follow the fall of a channel's acknowledge, that included."""
        return self.greatest(lambda stmt, let_go, down: 1 + down, kind=["send", "receive"], name=[channel])

    def assigned(self, name):
        """The same of the acknowledge of a variable."""
        received = self.greatest(lambda stmt, let_go, down: 2 + self.acked(stmt.name), kind=["receive"], target=[name])
        return max(received, self.greatest(lambda stmt, let_go, down: 1 + down, kind=["assign"], name=[name]))

    def taken(self, channel):
        """The same of a channel's rails."""
        clears = self.greatest(lambda stmt, let_go, down: 3 + self.cleared(stmt.target), kind=["receive"], name=[channel])
        return max(self.acked(channel), clears)

    def cleared(self, name):
        """What follows the fall of a variable's bits: of the tree, and of its acknowledge."""
        return self.height_of(name) + self.assigned(name)

    def passes(self, channel):
        """The phase of a value that passes on a channel."""
        rails = 2 + self.acked(channel) if self.kinds[channel] == "out" else 1 + self.taken(channel)
        sent = self.greatest(lambda stmt, let_go, down: 1 + let_go + self.own_depth(stmt) + rails, kind=["send"], name=[channel])
        got = self.greatest(lambda stmt, let_go, down: 1 + let_go + 3 + self.cleared(stmt.target), kind=["receive"], name=[channel])
        return max(2 + self.acked(channel), 1 + self.taken(channel), sent, got)

    def puts(self, name):
        """The phase of an assignment to a variable."""
        clears = 2 + self.cleared(name)
        return max(clears, self.greatest(lambda stmt, let_go, down: 1 + let_go + self.own_depth(stmt) + clears, kind=["assign"], name=[name]))

    def latched(self, stmt, left):
        """The phase of a latch of a selection, of which so many moves are left when the guards have fallen."""
        return 2 + self.guards(stmt) + max(left, *map(self.first, stmt.children))

    def phase(self, stmt):
        """That of a statement's step."""
        if stmt.kind == "skip":
            return self.greatest(lambda stmt, let_go, down: let_go + 1 + down, kind=["skip"])
        if stmt.kind == "assign":
            return self.puts(stmt.name)
        if stmt.kind in ("send", "receive"):
            return self.passes(stmt.name)
        if stmt.kind == "again":
            return self.greatest(lambda stmt, let_go, down: self.latched(stmt, let_go + 5 + down), kind=["again"])
        return self.latched(stmt, 0) if stmt.kind == "select" else self.first(stmt.children[0]) - 1


def longest(text):
    """The longest way of the program with this text."""
    return Model(text).longest()


def reads_target(text):
    """Whether an assignment outside of procedures reads its own target."""
    whole = Model(text)
    return any(stmt.kind == "through" for stmt, _ in whole.sites(whole.body))


def bound(text):
    """How long each of n rounds takes at most, as proved of the circuit in which each call is a copy: twice as long as the longest way of
    the program in halves where an assignment reads its own target."""
    return 2 * Model(text, halved=True).longest() if reads_target(text) else longest(text)


def steps_of(text, script, most):
    """The statements that make the steps of each round until none is left, of so many rounds at most."""
    model = Phases(text)
    made = Rounds(model.kinds, model.widths, model.firsts, model.body, script)
    for _ in range(most):
        if not (steps := made.enabled()):
            break
        yield [stmt for _, stmt in steps]
        made.round()


def rounds_sum(text, script, n):
    """So many moves, one behind the other, lead at most to the steps of the n-th round under the script, by
    crates/round_time/specs/Sums.antt, in the circuit in which each call is a copy."""
    model, phases = Phases(text), {}
    total, leads = 0, 1 + model.first(model.body)
    for steps in steps_of(text, script, n):
        its = {(stmt.start, stmt.kind, stmt.name): stmt for stmt in steps}
        phases.update({key: model.phase(stmt) for key, stmt in its.items() if key not in phases})
        total, leads = total + leads + 1, max(phases[key] for key in its)
    return total


def ways_told(text):
    """The lines of chp_pace on where the longest way of a program lies, and on its loops."""
    model = Model(text)
    way = model.longest_way()
    yield f"from {point(way.start, 'start')}"
    yield f"to {point(way.end, 'end')}"
    for stmt, length in model.loops():
        yield placed(f"loop {length}", stmt)


def told(text, script, most=1000):
    """The rounds and the sum that chp_pace tells of a program under a script: where an assignment reads its own target each round counts as
    `bound` says, and all counts twice where the bodies of procedures are shared."""
    rounds = sum(1 for _ in steps_of(text, script, most))
    total = rounds * bound(text) if reads_target(text) else rounds_sum(text, script, rounds)
    return rounds, total * (2 if read_program(text).procs else 1)
