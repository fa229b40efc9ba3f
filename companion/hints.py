"""Which row of the table "you wrote, write instead" in docs/LANGUAGE.md fits a refused place. The rows' sentences stand
in the table alone; here stands only how each is recognised."""

from __future__ import annotations

import re

from companion import widths
from companion.causes import wrote
from companion.chp_reader import declarations
from companion.chp_tokens import number_of

CALLED, WAITED = "`p`, `p()`", "`[x]`, `*[x]`"  # rows of which a name that is a procedure's decides
INTO_BITS = "`L?x[3:0]`"
BEGINS = r"(\bbegin|[;,(\[]|->|\|\|)\s*"  # what may stand before a statement
# for each row, by its first cell: what stands right before the place and what begins there
ROWS: list[tuple[str, tuple[int, ...], str, str]] = [
    ("`true`, `false`", (21,), r"", r"(true|false|TRUE|FALSE|True|False)\b"),
    ("`else -> S`", (21,), r"", r"(else|otherwise|default)\b"),
    ("`const N = 8;`", (11,), r"", r"(const|let|define|param)\b"),
    ("`bool b;`, `int n;`", (11,), r"", r"(bool|int|uint|byte|bit|reg|wire|logic|signal|node)\b"),
    ("`if b then S`, `while b do S`", (11,), r"\b(if|while)\s*$", r""),
    ("`if b then S`, `while b do S`", (11,), r"", r"(if|while|then|do)\b"),
    ("`not b`, `a and b`, `a or b`", (11,), r"\b(not|and|or|xor)\s*$", r""),
    ("`not b`, `a and b`, `a or b`", (11,), r"", r"(and|or|xor)\b"),
    ("`[L?x -> S]`, `*[L?x -> S]`", (11,), r"\[\s*[A-Za-z]\w*\s*$", r"[?!]"),
    ("`[L?x -> S]`, `*[L?x -> S]`", (11,), r"\*\s*\[[^\[\]]*([?!]\s*\w+|\bskip|:=\s*\w+)\s*$", r"->"),
    ("`x <= x + 1;`", (11,), rf"{BEGINS}[A-Za-z]\w*\s*$", r"<="),
    ("`=>`", (11,), r"", r"=\s*>"),
    ("`=>`", (11,), r"=\s*$", r">"),
    ("`x == y`", (11,), r"=\s*$", r"="),
    ("`a && b`, `a || b`", (11,), r"&\s*$", r"&"),
    ("`a && b`, `a || b`", (11,), r"(\[|\[\]|->|:=)[^\[\];]*$", r"\|\|[^;\[\]]*->"),
    ("`x <- 1`", (11,), r"\w\s*$", r"<\s*-"),
    ("`x << 1`", (11,), r"<\s*$", r"<"),
    ("`x >> 1`", (11,), r">\s*$", r">"),
    ("`3 < x < 9`", (11,), r"(?<![-:])[<>=]\s*\w[\w\[\]:]*\s*$", r"(<=|>=|!=|<(?!-)|>|=)"),
    ("`-- ..` as a comment", (11,), r"(^|[;\n\])}]|\bbegin|\bend)\s*$", r"--"),
    ("`-- ..` as a comment", (11,), r"-$", r"-\s"),
    ("`# ..` as a comment", (13,), r"(^|[;\n\])}]|\bbegin)\s*$", r"#"),
    ("`→`, `≠`, `∧` and other signs beyond ASCII", (10,), r"", r"[\x80-\xff]"),
    ("`-- ..` as a comment", (11,), r"[\w)\]]\s+$", r"--\s"),
    ("`x++`, `x += 1`", (11,), r"\w\s*$", r"(\+\s*\+|\+\s*=|-\s*-|-\s*=)"),
    ("`!b`", (11,), r"(:=|!|->|\[|\[\]|[&|^=<>+\-~({,])\s*$", r"!"),
    ("`~~x`", (11,), r"~\s*$", r"~"),
    ("`-x`", (11,), r"(:=|!|[&|^=<>+\-~({,])\s*$", r"-(?!>)"),
    ("`x * y`", (11,), r"[\w)\]}]\s*$", r"\*(?!\s*\[)"),
    ("`x / y`, `x % y`", (10,), r"[\w)\]}]\s*$", r"(/(?![*])|%)"),
    ("`/* .. */`", (10,), r"", r"/\*"),
    ("`0XFF`, `0b101`, `1_000`, `8'd1`", (10,), r"", r"[0-9]|'"),
    ("`_x`", (10,), r"", r"_"),
    ("a name of 25 characters or more", (10,), r"", r"[A-Za-z]\w{24}"),
    ("`m[i]`", (11,), r"\w\s*\[\s*$", r"[A-Za-z]"),
    ("`x[3:0] := y`", (11,), r"(\bbegin|[;,(\[]|->|\|\|)\s*[A-Za-z]\w*\s*$", r"\[[^\]]*\]\s*:="),
    ("`X!`, `X?`", (11,), r"[A-Za-z]\w*\s*[!?]\s*$", r"(;|,|\]|\[\]|\)|\|\||end\b|$)"),
    ("`X!(a, b)`", (11,), r"!\s*\([^()]*$", r","),
    (INTO_BITS, (11,), r"\?\s*[A-Za-z]\w*\s*$", r"\["),
    ("`in X, Y : 8;`", (11,), r"\b(in|out|chan)\s+\w+\s*$", r","),
    ("`var x, y : 8;`", (11,), r"\bvar\s+\w+\s*$", r","),
    ("`in X;`, `out X;`", (11,), r"\b(in|out|chan)\s+\w+\s*$", r"[;=]|:="),
    ("`var x;`, `var x := 0;`", (11,), r"\bvar\s+\w+\s*$", r"[;=\[]|:="),
    ("`var x : 8 := 0;`", (11,), r"\bvar\s+\w+\s*:\s*\w+\s*$", r":="),
    (
        "a keyword as a name",
        (11,),
        r"\b(in|out|chan|var|proc|call)\s+$",
        r"(in|out|chan|var|begin|end|skip|proc|call)\b",
    ),
    ("`[x]`, `*[x]`", (11,), r"\[\s*[^\[\](){}!?:;|]*\w\s*$", r"\]"),
    ("`[a -> S | b -> T]`", (11,), r"->.*$", r"\|(?!\|)[^\[\]]*->"),
    ("`[a -> S | b -> T]`", (11,), r"->[^\[\]]*[^|\[]\|(?!\|)[^\[\]]*$", r"->"),
    ("`;` before `]`, `)` or `end`", (11,), r";\s*$", r"(\]|\[\]|\)|\|\||end\b)"),
    ("`end;`", (11,), r"\bend\s*$", r"[;.]"),
    ("`x, y := a, b`", (11,), rf"{BEGINS}[A-Za-z]\w*\s*$", r",\s*[A-Za-z]\w*(\s*,\s*\w+)*\s*:="),
    ("`loop S`, `forever S`, `repeat S`", (11,), r"\b(loop|forever|repeat)\s*$", r""),
    ("`p`, `p()`", (11,), rf"{BEGINS}[A-Za-z]\w*\s*$", r"(;|,|\]|\[\]|\)|\|\||end\b|\(|$)"),
    ("`proc p(a) = S;`", (11,), r"\bproc\s+\w+\s*$", r"\("),
    ("`proc p = S; T;`", (11,), r"\bproc\s+\w+\s*=(?!\s*\()[^;]*;\s*$", r"(skip\b|\*|\[|\(|[A-Za-z]\w*\s*(:=|!|\?))"),
    ("`x = 1;` as a statement", (11,), r"(\bbegin|[;,(\[]|->|\|\|)\s*[A-Za-z]\w*\s*$", r"="),
    ("`x = 1;` as a statement", (11,), r"\*\s*\[\s*[A-Za-z]\w*\s*=[^\[\](){};]*$", r"[;,]"),
    (
        "`x := 1  y := 2`",
        (11,),
        r"(:=|!|\?|skip|\])[^\[\]{}()=<>]*\s$",
        r"([A-Za-z]\w*\s*(:=|!|\?)|skip\b|\*\s*\[|\[(?!\]))",
    ),
    ("`var x : 8` without `;`", (11,), r"\b(in|out|chan|var)\s+\w+\s*:\s*\w+\s*$", r"(in|out|chan|var|proc|begin)\b"),
    ("`x := y` without `begin`", (11,), r"(^|;)\s*$", r"(skip\b|\*|\[|\(|[A-Za-z]\w*\s*(:=|!|\?))"),
]


def bare(data: bytes) -> str:
    """A text without its comments, each byte a character, comments as blanks."""
    text = data.decode("latin-1")
    return re.sub(r"//[^\n]*", lambda it: " " * len(it[0]), text)


def key_of(data: bytes, number: int, start: int) -> str:
    """The first cell of the row that fits the place, or nothing."""
    text = bare(data) if number != 10 else data.decode("latin-1")
    before, behind = text[max(0, start - 400) : start], text[start : start + 400]
    procedures = re.findall(r"\bproc\s+(\w+)", text)
    name = re.search(r"(\w*)\s*$", before)
    is_procedure = name is not None and name[1] in procedures
    for key, numbers, front, back in ROWS:
        if key == CALLED and not is_procedure or key == WAITED and is_procedure:
            continue
        if number in numbers and re.search(front, before) and re.match(back, behind):
            return key
    return ""


def into_bits(data: bytes, start: int) -> tuple[str, str]:
    """What to write for a receive into bits of a variable that begin at a place, by the widths that are declared, and
    what stands there; nothing where the widths don't tell it."""
    text = bare(data)
    names = re.search(r"([A-Za-z]\w*)\s*\?\s*([A-Za-z]\w*)\s*$", text[:start])
    told = re.match(r"\[\s*(\w+)\s*(?::\s*(\w+)\s*)?\]", text[start:])
    bits = [number_of(word) for word in (told[1], told[2] or told[1])] if told else []
    known = [bit for bit in bits if bit is not None]
    if not names or not told or len(known) < 2:
        return "", ""
    taken = set(re.findall(r"\bproc\s+(\w+)", text))
    instead = widths.received_into(declarations(data), taken, names[1], names[2], *known)
    return instead, f"`{re.sub(r'[ ]+', '', names[0] + told[0])}`"


def hint(data: bytes, number: int, start: int, end: int) -> str:
    """What to write instead at a refused place, as the table says, or nothing."""
    key = key_of(data, number, start)
    row = wrote().get(key)
    own, written = into_bits(data, start) if key == INTO_BITS else ("", "")
    if own:
        return f"{own} (for {written})"
    return f"{row.instead} (for {row.key})" if row else ""
