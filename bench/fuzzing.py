"""What bench/fuzz makes by chance: programs, scripts and delay files, and changes of any file.

All of it is drawn from a `random.Random`, so one seed always makes the same. Texts are strings where they are made, and bytes
where they are changed.
"""
import re
import string
from typing import NamedTuple

KEYWORDS = {"in", "out", "chan", "var", "begin", "end", "skip", "proc", "call"}
BLANKS = (" ", " ", " ", " ", "\n", "\t", "\r\n", "  // x := {#\n")
COMPARISONS = ("=", "!=", "<", "<=", ">", ">=")
CHAINS = {"|": 0, "^": 1, "&": 2, "+": 4, "-": 4}  # each with the level at which it binds
COMPARISON, OPPOSITE, VALUE = 3, 5, 6
PARALLEL, SEQUENCE, BOTH, ATOM = range(4)


class Rights(NamedTuple):
    """What a statement may use, each name with its width: variables to write and to read, channels to send and receive on; and
    procedures to call, each with the rights that its body uses."""
    writes: dict
    reads: dict
    sends: dict
    receives: dict
    calls: dict = {}


ENDS = ("writes", "reads", "sends", "receives")


def split(draw, rights, count):
    """The rights of so many branches, so that these share nothing but variables that none of them writes. A procedure goes to a
    branch that may do what its body does, if there is one."""
    only_read = {name: width for name, width in rights.reads.items() if name not in rights.writes}
    parts = [Rights({}, dict(only_read), {}, {}, {}) for _ in range(count)]
    for name, width in rights.writes.items():
        is_read_by_all, owner = draw.random() < 0.2, draw.choice(parts)
        for part in parts if is_read_by_all else [owner]:
            part.reads[name] = width
        if not is_read_by_all:
            owner.writes[name] = width
    for ends in ("sends", "receives"):
        for name, width in getattr(rights, ends).items():
            getattr(draw.choice(parts), ends)[name] = width
    for name, used in rights.calls.items():
        able = [part for part in parts if all(set(getattr(used, ends)) <= set(getattr(part, ends)) for ends in ENDS)]
        if able:
            draw.choice(able).calls[name] = used
    return parts


def bracketed(part, least):
    """A part, which is a level and a text, as it stands where parts of some level may."""
    level, text = part
    return text if level >= least else f"({text})"


def number(draw, width):
    """A number of at most so many bits."""
    value = draw.choice((0, 1, 2**width - 1, draw.randrange(2**width), draw.randrange(2**width)))
    return draw.choice((str, str, hex, lambda it: f"0x{it:X}"))(value)


class Expressions:
    """Makes expressions of a width over variables that may be read. Those that are `known` have this width by themselves."""

    def __init__(self, draw):
        self.draw = draw

    def made(self, width, reads, depth, known=False):
        """An expression as a level and a text; a known one wants some variable."""
        ways = [self.bits, self.bits] if reads else []
        ways += [] if known else [self.numeral]
        ways += [self.chain, self.chain, self.opposite] if depth > 0 else []
        ways += [self.comparison, self.comparison] if depth > 0 and reads and width == 1 else []
        ways += [self.joined] if depth > 0 and reads and width > 1 else []
        return self.draw.choice(ways)(width, reads, depth - 1, known)

    def numeral(self, width, reads, depth, known):
        return VALUE, number(self.draw, width)

    def bits(self, width, reads, depth, known):
        """Bits of a variable, or of several that are joined where none has as many."""
        wide = [name for name, most in reads.items() if most >= width]
        if not wide:
            first = self.draw.randint(1, min(width - 1, max(reads.values())))
            return VALUE, f"{{{self.bits(first, reads, 0, True)[1]}, {self.bits(width - first, reads, 0, True)[1]}}}"
        name = self.draw.choice(wide)
        if reads[name] == width and self.draw.random() < 0.8:
            return VALUE, name
        low = self.draw.randint(0, reads[name] - width)
        is_one = width == 1 and self.draw.random() < 0.7
        return VALUE, f"{name}[{low}]" if is_one else f"{name}[{low + width - 1}:{low}]"

    def chain(self, width, reads, depth, known):
        """Members with one sign between them; a few chains are so long that the circuit may be too large."""
        sign = self.draw.choice(list(CHAINS))
        level, count = CHAINS[sign], self.draw.choice((2, 2, 3)) if self.draw.random() < 0.998 else 300
        place = self.draw.randrange(count)
        parts = [self.made(width, reads, depth, known and at == place) for at in range(count)]
        return level, f" {sign} ".join(bracketed(part, level + 1) for part in parts)

    def opposite(self, width, reads, depth, known):
        return OPPOSITE, "~" + bracketed(self.made(width, reads, depth, known), VALUE)

    def comparison(self, width, reads, depth, known):
        compared = self.draw.choice(list(reads.values()))
        sides = [self.made(compared, reads, depth, True), self.made(compared, reads, depth)]
        self.draw.shuffle(sides)
        return COMPARISON, f" {self.draw.choice(COMPARISONS)} ".join(bracketed(side, COMPARISON + 1) for side in sides)

    def joined(self, width, reads, depth, known):
        parts, left = [], width
        while left > 0:
            parts.append(self.draw.randint(1, left))
            left -= parts[-1]
        return VALUE, "{" + ", ".join(self.made(part, reads, min(depth, 1), True)[1] for part in parts) + "}"


class Statements:
    """Makes statements, each as a level and a text."""

    def __init__(self, draw):
        self.draw, self.expressions = draw, Expressions(draw)

    def made(self, rights, depth):
        if depth <= 0:
            return self.single(rights, 0)
        ways, weights = zip((self.single, 3), (self.sequence, 4), (self.branches, 3), (self.selection, 2), (self.repetition, 1))
        return self.draw.choices(ways, weights)[0](rights, depth - 1)

    def value(self, width, reads):
        return self.expressions.made(width, reads, self.draw.choice((0, 0, 1, 1, 2, 3)))[1]

    def single(self, rights, depth):
        """A statement that has no other one in it."""
        received = [(channel, name) for channel, width in rights.receives.items()
                    for name, bits in rights.writes.items() if bits == width]
        texts = [lambda: "skip"]
        if rights.writes:
            texts.append(lambda: self.assignment(*self.draw.choice(list(rights.writes.items())), rights.reads))
        if rights.sends:
            texts += [lambda: self.send(*self.draw.choice(list(rights.sends.items())), rights.reads)] * 2
        if received:
            texts += [lambda: "{} ? {}".format(*self.draw.choice(received))] * 2
        if rights.calls:
            texts += [lambda: f"call {self.draw.choice(list(rights.calls))}"] * 4
        return ATOM, self.draw.choice(texts[1:] or texts)()

    def assignment(self, name, width, reads):
        return f"{name} := {self.value(width, reads)}"

    def send(self, name, width, reads):
        return f"{name} ! {self.value(width, reads)}"

    def sequence(self, rights, depth):
        parts = [self.made(rights, depth) for _ in range(self.draw.randint(2, 4))]
        return SEQUENCE, " ; ".join(bracketed(part, SEQUENCE + 1) for part in parts)

    def branches(self, rights, depth):
        level, sign = self.draw.choice(((PARALLEL, " || "), (BOTH, " , ")))
        parts = [self.made(part, depth) for part in split(self.draw, rights, self.draw.randint(2, 3))]
        return level, sign.join(bracketed(part, level + 1) for part in parts)

    def guards(self, reads):
        """Guards of which mostly one is true: one and its opposite, or the values of a variable, or else any ones."""
        guard = self.value(1, reads)
        if reads and self.draw.random() < 0.3:
            name, width = self.draw.choice(list(reads.items()))
            return [f"{name} = {value}" for value in range(min(2**width, self.draw.choice((2, 4, 16, 17))))]
        if self.draw.random() < 0.7:
            return [guard, f"~({guard})"]
        return [guard] + [self.value(1, reads) for _ in range(self.draw.randint(0, 2))]

    def selection(self, rights, depth):
        guards = self.guards(rights.reads)
        depth = depth if len(guards) < 4 else 0
        arms = [f"{guard} -> {self.made(rights, depth)[1]}" for guard in guards]
        return ATOM, "[" + " [] ".join(arms) + "]"

    def repetition(self, rights, depth):
        if self.draw.random() < 0.5:
            return ATOM, f"* [{self.made(rights, depth)[1]}]"
        return ATOM, f"* {self.selection(rights, depth)[1]}"


def names(draw, count):
    """So many names, each another one."""
    chosen = set()
    while len(chosen) < count:
        length = draw.choice((0, 1, 1, 2, 3, 23))
        chosen.add(draw.choice(string.ascii_letters) + "".join(draw.choices(string.ascii_letters + string.digits + "_", k=length)))
    chosen -= KEYWORDS
    return draw.sample(sorted(chosen), len(chosen))


def declared(draw, kind, name, width):
    first = f" = {number(draw, width)}" if kind == "var" and draw.random() < 0.3 else ""
    return f"{kind} {name} : {width}{first} ;\n"


def used_by(body, rights):
    """Those of the rights that a body uses."""
    words = set(re.findall(r"[A-Za-z]\w*", body))
    written = set(re.findall(r"(\w+) :=", body)) | set(re.findall(r"\? (\w+)", body))
    sent, received = set(re.findall(r"(\w+) !(?!=)", body)), set(re.findall(r"(\w+) \?", body))
    kept = (written, words, sent, received)
    return Rights(*({name: width for name, width in getattr(rights, ends).items() if name in some} for ends, some in zip(ENDS, kept)))


def procedures(draw, rights, chosen):
    """Bodies of procedures by their names, and the rights with their calls."""
    bodies = {name: bracketed(Statements(draw).made(rights, draw.choice((0, 1, 1, 2, 3))), ATOM) for name in chosen}
    return bodies, rights._replace(calls={name: used_by(body, rights) for name, body in bodies.items()})


def with_procedures(draw, lines, bodies, body):
    """The declarations of a program, those of the procedures that its body calls among them."""
    for name, own in bodies.items():
        if re.search(rf"\bcall {name}\b", body):
            lines.insert(draw.randint(0, len(lines)), f"proc {name} = {own} ;\n")
    return "".join(lines)


def any_program(draw):
    """A program of any form over a few names; one in three has procedures."""
    widths = draw.choices((1, 2, 3, 4, 8, draw.randint(1, 64), draw.choice((1, 64))), k=2) + [1]
    parts = [(draw.choice(("in", "out", "chan", "var", "var")), name, draw.choice(widths)) for name in names(draw, draw.randint(1, 9))]
    kinds = {kind: {name: width for is_kind, name, width in parts if is_kind == kind} for kind in ("in", "out", "chan", "var")}
    rights = Rights(kinds["var"], kinds["var"], kinds["out"] | kinds["chan"], kinds["in"] | kinds["chan"])
    chosen = names(draw, draw.randint(1, 3)) if draw.random() < 1 / 3 else []
    bodies, rights = procedures(draw, rights, chosen)
    _, body = Statements(draw).made(rights, draw.choice((0, 1, 2, 3, 3, 4, 4, 5)))
    return with_procedures(draw, [declared(draw, *part) for part in parts], bodies, body) + f"begin\n{body}\nend\n"


def stages(draw):
    """A pipeline, so that values pass: each stage takes one, does something with it, which may be a procedure that it calls once or
    twice, and sends one on."""
    count, chosen, statements, bodies = draw.randint(1, 4), names(draw, 13), Statements(draw), {}
    channels, variables = chosen[: count + 1], chosen[count + 1 : 2 * count + 1]
    widths = [draw.choice((1, 2, 4, 8, draw.randint(1, 64))) for _ in channels]
    kinds = ["in"] + ["chan"] * (count - 1) + ["out"]
    lines = [declared(draw, *part) for part in zip(kinds, channels, widths)]
    lines += [declared(draw, "var", *part) for part in zip(variables, widths)]
    parts = []
    for place, name in enumerate(variables):
        own = {name: widths[place]}
        work = bracketed(statements.made(Rights(own, own, {}, {}), draw.randint(0, 3)), BOTH)
        if draw.random() < 0.2:
            bodies[f"do{place}"] = f"({work})"
            work = draw.choice((f"call do{place}", f"call do{place} ; call do{place}"))
        sent = statements.send(channels[place + 1], widths[place + 1], own)
        parts.append(f"* [{channels[place]} ? {name} ; {work} ; {sent}]")
    body = "\n|| ".join(parts)
    return with_procedures(draw, lines, bodies, body) + f"begin\n{body}\nend\n"


def program(draw):
    """A program text, which is mostly accepted; in one in some calls stand where they may not."""
    text = draw.choice((any_program, stages))(draw)
    if draw.random() < 0.04:
        text = re.sub(r"\bskip\b", lambda _: draw.choice(("skip", "call p0", "call p0", "call p1")), text)
        text = text.replace("begin", draw.choice(("", "proc p1 = skip ;\n")) + "proc p0 = skip ;\nbegin", 1)
    return text


def has_procedures(text):
    """Whether an accepted program, in bytes, declares a procedure."""
    return re.search(rb"\bproc\b", re.sub(rb"//[^\n]*", b"", text)) is not None


def channels_of(text):
    """The kinds, names and widths of the channels of a text as it is made here."""
    return [(kind, name, int(width)) for kind, name, width in re.findall(r"^(in|out|chan) (\w+) : (\d+)", text, re.M)]


def spread(draw, text):
    """The same program with other blanks and with comments."""
    return re.sub("[ \n]", lambda _: draw.choice(BLANKS), text)


def script(draw, channels):
    """A script for channels, which are kinds, names and widths."""
    lines = []
    for kind, name, width in draw.sample(channels, len(channels)):
        if kind == "in" and draw.random() < 0.95:
            lines.append(f"{name}: " + draw.choice((" ", "\t ")).join(number(draw, width) for _ in range(draw.choice((0, 1, 3, 8, 30)))))
        if kind == "out" and draw.random() < 0.5:
            lines.append(f"{name}: {draw.choice(('all', '0', '1', '5', '0x20', str(2**64 - 1)))} // taken")
    return "\n".join(lines) + draw.choice(("", "\n"))


def delays(draw, nodes):
    """A delay file for some of the nodes."""
    most = draw.choice((1, 3, 1000, 1_000_000))
    chosen = draw.sample(nodes, min(len(nodes), draw.choice((0, 1, 10, 100_000))))
    return "".join(f"{node} {draw.randint(0, most)} {draw.choice((0, hex(most), draw.randint(0, most)))}\n" for node in chosen)


def in_bytes(draw, text):
    """A text that differs in some bytes that stand together, or ends there."""
    start = draw.randint(0, len(text))
    end = min(len(text), start + draw.choice((1, 1, 2, 8, 100)))
    some, byte = text[start:end], bytes([draw.choice((draw.randrange(256), draw.choice(b" \n\r#[](){}:;!?|~-.019xXaz_"), 0))])
    instead = draw.choice((byte, byte + some, b"", some + some, bytes(it ^ 1 << draw.randrange(8) for it in some[:1]) + some[1:]))
    return text[:start] if draw.random() < 0.1 else text[:start] + instead + text[end:]


def in_lines(draw, text):
    """A text without a line, with one twice or 300 times, or with two of them exchanged."""
    lines = text.splitlines(keepends=True) or [b"\n"]
    first, second = draw.randrange(len(lines)), draw.randrange(len(lines))
    how = draw.randrange(3)
    if how == 0:
        lines[first], lines[second] = lines[second], lines[first]
    elif how == 1:
        del lines[first]
    else:
        # A line without an end stays one line, so it could come to gigabytes.
        count = draw.choice((2, 2, 2, 300))
        lines[first : first + 1] = [lines[first]] * (count if len(lines[first]) < 100_000 else 2)
    return b"".join(lines)


def in_tokens(draw, text):
    """A text without some of its tokens, with another one in the place of one, or with many brackets around one."""
    tokens = list(re.finditer(rb"[\w.]+|:=|->|\|\||\[\]|\S", text))
    if not tokens:
        return text + b"begin"
    at, other = draw.randrange(len(tokens)), draw.choice(tokens)[0]
    token, behind = tokens[at], tokens[min(len(tokens) - 1, at + draw.choice((1, 2, 2, 3)))]
    if draw.random() < 0.3:
        return text[: token.start()] + text[behind.start() :]
    if draw.random() < 0.03:
        count = draw.choice((1, 2, 200, 255, 256, 257))
        opened, closed = draw.choice(((b"(", b")"), (b"{", b"}"), (b"*[", b"]"), (b"[", b"]")))
        other = opened * count + token[0] + closed * count
    return text[: token.start()] + other + text[token.end() :]


def changed(draw, text):
    """A text that differs from this one in some places."""
    for _ in range(draw.choice((1, 1, 1, 2, 3, 8))):
        text = draw.choice((in_bytes, in_lines, in_tokens, in_tokens))(draw, text)
    return text
