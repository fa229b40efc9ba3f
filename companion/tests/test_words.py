"""Help, version, and the table "you wrote, write instead"."""

from __future__ import annotations

import os

from companion import causes, hints
from companion.forms import forms
from companion.own import OWN
from companion.tests import recorded
from companion.tests.base import Case

# for each row of the table texts of which it speaks
WROTE = {
    "`[x]`, `*[x]`": ["var x : 1; begin [x] end", "var x : 1; begin *[x = 1] end"],
    "`[L?x -> S]`, `*[L?x -> S]`": [
        "in L : 1; var x : 1; begin [L?x -> skip] end",
        "in L : 1; var x : 1; begin *[L?x -> skip] end",
    ],
    "`x <= x + 1;`": ["var x : 4; begin x <= x + 1 end"],
    "`true`, `false`": ["var x : 1; begin *[true -> x := 1] end"],
    "`else -> S`": ["var x : 1; begin [x -> skip [] else -> skip] end"],
    "`x == y`": ["var x : 1; begin [x == 1 -> skip] end"],
    "`=>`": ["var a : 1; begin [a = 1 => skip] end", "var a : 1; begin [a => skip] end"],
    "`3 < x < 9`": ["var x : 4; begin [3 < x < 9 -> skip] end", "var x : 4; begin [0 <= x <= 9 -> skip] end"],
    "`x, y := a, b`": ["var x : 1; var y : 1; begin x, y := 1, 0 end"],
    "`L?x[3:0]`": ["in L : 4; var x : 8; begin L?x[3:0] end"],
    "`in X;`, `out X;`": ["out T; begin skip end", "in T; begin skip end"],
    "`loop S`, `forever S`, `repeat S`": ["begin loop skip end", "var x : 1; begin forever x := 1 end"],
    "`-- ..` as a comment": ["begin skip; -- c\nskip end", "var x : 1; begin x := 1 -- c\nend"],
    "`# ..` as a comment": ["# c\nbegin skip end", "begin skip;\n# c\nskip end"],
    "`→`, `≠`, `∧` and other signs beyond ASCII": [
        "var a : 1; begin [a → skip] end",
        "var a : 1; begin [a ≠ 1 -> skip] end",
    ],
    "`p`, `p()`": ["proc p = skip; begin p; skip end", "proc p = skip; begin p() end"],
    "`proc p = S; T;`": ["var x : 8; out R : 8; proc p = x := x + 1; R!x; begin skip end"],
    "`proc p(a) = S;`": ["proc p(a) = skip; begin call p end"],
    "`x = 1;` as a statement": [
        "var x : 1; begin x = 1 end",
        "var x : 1; begin x := 0; x = 1 end",
        "var x : 1; begin [x = 0 -> x = 1 [] x = 1 -> skip] end",
        "var x : 1; begin *[x = 0; skip] end",
    ],
    "`x <- 1`": ["var a : 1; begin a <- 1 end"],
    "`x++`, `x += 1`": ["var a : 8; begin a += 1 end", "var a : 8; begin a++ end"],
    "`!b`": ["var x : 1; begin x := !x end", "var x : 1; begin [!x -> skip] end"],
    "`not b`, `a and b`, `a or b`": ["var a : 1; begin [not a -> skip] end", "var a : 1; begin [a and a -> skip] end"],
    "`a && b`, `a || b`": ["var a : 1; begin [a && a -> skip] end", "var a : 1; begin [a || a -> skip] end"],
    "`~~x`": ["var x : 1; begin x := ~~x end"],
    "`-x`": ["var x : 1; begin x := -x end"],
    "`x << 1`": ["var x : 8; begin x := x << 1 end"],
    "`x >> 1`": ["var x : 8; begin x := x >> 1 end"],
    "`x * y`": ["var x : 8; begin x := x * 3 end"],
    "`x / y`, `x % y`": ["var x : 8; begin x := x / 3 end", "var x : 8; begin x := x % 3 end"],
    "`x[3:0] := y`": ["var x : 8; begin x[3:0] := 0 end"],
    "`m[i]`": ["var m : 8; var i : 3; var b : 1; begin b := m[i] end"],
    "`X!`, `X?`": ["out X : 1; begin X! end", "in X : 1; begin X?; skip end"],
    "`X!(a, b)`": ["out X : 2; var a : 1; begin X!(a, a) end"],
    "`in X, Y : 8;`": ["in X, Y : 8; begin skip end", "chan a, b : 1; begin skip end"],
    "`var x, y : 8;`": ["var a, b : 8; begin skip end"],
    "`var x;`, `var x := 0;`": ["var x; begin skip end", "var x := 0; begin skip end"],
    "`var x : 8 := 0;`": ["var x : 8 := 0; begin skip end"],
    "`var x : 8` without `;`": ["var a : 1 begin skip end"],
    "`const N = 8;`": ["const N = 8; begin skip end"],
    "`bool b;`, `int n;`": ["bool b; begin skip end"],
    "a keyword as a name": ["var in : 1; begin skip end"],
    "`if b then S`, `while b do S`": ["var a : 1; begin if a then skip end", "var a : 1; begin while a do skip end"],
    "`[a -> S | b -> T]`": [
        "var a : 1; begin [a -> skip | ~a -> skip] end",
        "out R : 1; var x : 1; begin [x = 0 -> R!0 | x = 1 -> R!1] end",
    ],
    "`;` before `]`, `)` or `end`": ["var x : 8; begin x := 1; end", "var x : 8; begin *[x := 1;] end"],
    "`end;`": ["begin skip end;"],
    "`x := 1  y := 2`": ["var a : 1; begin a := 1 a := 0 end", "out X : 1; begin skip X!1 end"],
    "`x := y` without `begin`": ["var a : 1; a := 1 end", "skip"],
    "`/* .. */`": ["/* c */ begin skip end"],
    "`0XFF`, `0b101`, `1_000`, `8'd1`": ["var x : 8; begin x := 0XFF end", "var x : 8; begin x := 1_000 end"],
    "`_x`": ["var _x : 1; begin skip end"],
    "a name of 25 characters or more": ["var a_very_long_name_of_a_variable : 1; begin skip end"],
}
# what the table says to write instead, in whole programs
INSTEAD = [
    "var x : 1; begin [x -> skip] end",
    "var x : 1; begin *[x := 1] end",
    "var a : 1; var b : 1; begin [a -> skip [] b -> skip [] ~(a | b) -> skip] end",
    "var x : 1; var y : 1; begin [x = y -> x := x + 1 [] ~(x = y) -> x := 0 - x] end",
    "var x : 1; begin x := ~(~x) end",
    "var x : 8; begin x := x + x; x := {x[6:0], x[0] & 0}; x := {x[7] & 0, x[7:1]} end",
    "var x : 8; var y : 4; begin x := {x[7:4], y} end",
    "var m : 8; var i : 1; var b : 1; begin [i = 0 -> b := m[0] [] i = 1 -> b := m[1]] end",
    "out X : 1; out Y : 2; in Z : 1; var v : 1; begin X!0; Z?v; Y!{v, v} end",
    "in X : 8; in Y : 8; var x : 8 = 0; var b : 1; var n : 8; begin skip end",
    "var b : 1; begin [b -> skip [] ~b -> skip]; *[b -> skip] end",
    "var x : 8; begin x := 0xFF; x := 5 end",
    "var x : 8; var y : 16; begin y := {x & 0, x} end",
    "var x : 8; var y : 8; var s : 9; begin s := {x[0] & 0, x} + {y[0] & 0, y}; [x[7] = 1 -> skip] end",
    "var x : 4; begin [x < 8 -> [x = 1 -> skip] [] x >= 8 -> skip] end",
    "var x : 4; var t : 4; in L : 4; proc p = (L?t; x := t); begin call p; [3 < x & x < 9 -> skip] end",
    "var x : 8; var t : 4; in L : 4; begin L?t; x := {x[7:4], t} end",
    "var x : 1; var y : 1; begin x := 1, y := 0 end",
]


class Words(Case):
    """The companion's own words."""

    def test_help(self) -> None:
        ran = self.typed("--help")
        self.assertEqual((ran.status, ran.err), (0, ""))
        self.has(ran.out, ["Nothing that chpx does itself is proved", *(form.text for form in forms()), *OWN])
        for name in OWN:
            self.has(self.chpx_help(name), [f"usage: chpx {name}"])
        for form in forms():
            self.has(self.typed(form.command, "--help").out, [f"chpx {form.text}\n"])

    def chpx_help(self, name: str) -> str:
        """The help of one of the companion's commands."""
        ran = self.typed(name, "--help")
        self.assertEqual((ran.status, ran.err), (0, ""))
        return ran.out

    def test_version(self) -> None:
        self.has(self.typed("--version").out, ["chpx ", "isn't proved", "recorded-chpc\n"])

    def test_own_words(self) -> None:
        ran = self.typed("why", "a", "b", "--progam", "c")
        self.assertEqual((ran.status, ran.out), (2, ""))
        self.has(ran.err, ["--program", "usage: chpx why"])

    def test_new_command(self) -> None:
        """A command that the pages don't name is handed on too."""
        self.write("fake", '#!/bin/sh\necho "$@"\n')
        os.chmod("fake", 0o755)
        self.assertEqual(self.typed("render", "--all", "x", other=os.path.abspath("fake")).out, "render --all x\n")


class Wrote(Case):
    """The table of docs/LANGUAGE.md: each row is recognised, and what it says to write is accepted."""

    def test_rows(self) -> None:
        self.assertEqual(set(causes.wrote()), set(WROTE))
        self.assertEqual(set(causes.wrote()), {row[0] for row in hints.ROWS})
        for key, texts in WROTE.items():
            for text in texts:
                with self.subTest(text):
                    said = recorded.answer(["check", self.write("f.chp", text)]).said().split()
                    start = int(said[4].split("..")[0])
                    self.assertEqual(hints.key_of(text.encode(), int(said[1]), start), key)

    def test_instead(self) -> None:
        for text in INSTEAD:
            with self.subTest(text):
                self.assertEqual(recorded.answer(["check", self.write("f.chp", text)]).status, 0)

    def test_causes(self) -> None:
        self.assertEqual([cause.number for cause in causes.causes().values() if not cause.instead], [])
