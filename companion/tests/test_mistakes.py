"""Typical mistakes: each has a cause, and what to write instead."""

from __future__ import annotations

from companion.tests.base import Case

# texts of programs that are refused, each with parts of what is said
PROGRAMS: list[tuple[str, list[str]]] = [
    ("var x : 8; begin [x -> skip] end", ["1 bit wanted here, and `x` has 8", "`x != 0` is one bit"]),
    ("in A : 8; var x : 8; begin A?x; [x[3:0] -> skip] end", ["1 bit wanted here", "`x[3:0] != 0`"]),
    ("var x : 8; var y : 8; out R : 9; begin R!x + y end", ["9 bits wanted here, and `x` has 8", "{x[0:0] & 0, x}"]),
    ("var x : 8; var y : 16; begin y := x end", ["16 bits wanted here, and `x` has 8", "`{x & 0, x}`"]),
    ("var x : 4; var y : 16; begin y := x end", ["16 bits wanted here", "`var z : 12;`"]),
    ("var x : 16; var y : 8; begin y := x end", ["8 bits wanted here, and `x` has 16", "`x[7:0]`"]),
    ("var x : 16; var y : 4; begin y := x[15:8] end", ["4 bits wanted here", "`x[11:8]`"]),
    ("in L : 8; var x : 4; begin L?x end", ["L carries 8 bits, and the variable x has 4", "`var x : 8;`"]),
    ("var x : 8; begin x := 256 end", ["8 bits wanted here, and 256 needs 9 bits", "a number below 256"]),
    ("var x : 4 = 16; begin skip end", ["x has 4 bits, and 16 needs 5 bits"]),
    ("var x : 8; begin [x & 1 = 1 -> skip] end", ["`(x & 1) = 1`", "binds tighter"]),
    ("var x : 8; begin [x = 1 -> x := 2 end", ["this bracket is still open there", "instead: `]` before `end`\n"]),
    ("var x : 8; begin (x := 1; x := 2 end", ["this bracket is still open there", "instead: `)` before `end`\n"]),
    ("var x : 8; begin *[x := 1", ["this bracket is still open there", "instead: `]`, and then `end`\n"]),
    ("var x : 8; begin *[[x = 1 -> x := 1 end", ["instead: `]]` before `end`\n"]),
    ("var x : 8; begin (*[x := 2); skip end", ["instead: `]` before `)`\n"]),
    ("var x 8; begin skip end", ["expected here: `:`"]),
    ("var x : 8; begin x := end", ["expected here: an expression"]),
    ("begin skip skip end", ["expected here: `,`, `;`, `end` or `||`", "a `;` between them"]),
    ("var x : 8; begin x end", ["expected here: `!`, `:=` or `?`"]),
    ("proc p = skip; begin *[p] end", ["expected here: `!`, `:=` or `?`", "`call p`"]),
    ("in L : 8; var x : 8; begin *[L?x -> skip] end", ["receives are no guards", "`*[L?x; S]`"]),
    ("var x : 8; out R : 4; begin R!x[0:3] end", ["the higher number comes first", "`x[3:0]`"]),
    ("var x : 16; out R : 1; begin R!x[16] end", ["x has the bits 15 to 0"]),
    ("var x : 8; begin x <= x + 1 end", ["`x := x + 1`"]),
    ("begin S!0 end", ["`out S : 8;`"]),
    ("in L : 8; out R : 8; var x : 8; begin *[L?x]\n*[R!x] end", ["write instead: a `;` between them"]),
    ("var count : 8; begin cuont := 0 end", ["`var cuont : 8;`, or `count`"]),
    ("var a : 1; begin [a → skip] end", ["`->`, `!=`, `&`"]),
    ("begin skip; -- done\nskip end", ["`// ..`"]),
    ("# a comment\nbegin skip end", ["`// ..`"]),
    ("var a : 1; begin [a => skip] end", ["`->`"]),
    ("out T; begin skip end", ["`in X : 8;`, with a width"]),
    ("in L : 4; var x : 8; begin L?x[3:0] end", ["`var t : 4;`, and then `L?t; x := {x[7:4], t}`"]),
    ("in L : 8; var t : 1; var x : 8; begin L?x[5:2] end", ["`var u : 8;`", "`L?u; x := {x[7:6], u[3:0], x[1:0]}`"]),
    ("in L : 16; var x : 8; begin L?x[7:0] end", ["`var t : 16;`", "`L?t; x := t[7:0]`"]),
    ("in L : 2; var x : 2; begin L?x[1:0] end", ["instead: `L?x` (for"]),
    ("in L : 2; var x : 8; begin L?x[0] end", ["`L?t; x := {x[7:1], t[0]}`"]),
    ("in L : 2; var x : 8; begin L?x[7:4] end", ["t : 2", "`L?t; x := {x[7:6], t, x[3:0]}` (for `L?x[7:4]`)"]),
    ("in L : 4; var x : 8; proc t = skip; begin L?x [3] end", ["`var u : 4;`", "u[0], x[2:0]}` (for `L?x[3]`)"]),
    ("var a, b : 8; begin skip end", ["`var x : 8; var y : 8;`"]),
    ("var x : 1; begin [x = 0 -> x = 1 [] x = 1 -> skip] end", ["`x := 1` (for `x = 1;`"]),
    ("var x : 4; begin [3 < x < 9 -> skip] end", ["`3 < x & x < 9`"]),
    ("out R : 1; var x : 1; begin [x = 0 -> R!0 | x = 1 -> R!1] end", ["`[a -> S [] b -> T]`"]),
    ("var x : 8; out R : 8; proc p = x := x + 1; R!x; begin call p end", ["`proc p = (S; T);`"]),
    ("proc p = skip; begin p; skip end", ["`call p`"]),
    ("proc p(v) = skip; begin call p end", ["no parameters"]),
    ("var x : 1; var y : 1; begin x, y := 1, 0 end", ["`x := a, y := b`"]),
    ("var x : 1; begin [x == 1 -> skip] end", ["`x = y`"]),
    ("var x : 1; begin x = 1 end", ["`x := 1`"]),
    ("var x : 8; begin x += 1 end", ["`x := x + 1`"]),
    ("var x : 8; begin x := x * 3 end", ["sums"]),
    ("var x : 8; begin if x = 1 then skip end", ["`[b -> S [] ~b -> skip]`"]),
    ("var x : 8; begin x := 1; end", ["it comes between statements"]),
    ("begin skip end;", ["nothing after it"]),
    ("var x; begin skip end", ["with a width"]),
    ("begin y := 0 end", ["a name is used that nothing declares", "`var y : 8;`"]),
    ("in X : 1; begin X!1 end", ["the environment sends on an `in` channel"]),
    ("var x : 1; out R : 1; begin x := 1 || R!x end", ["one branch that has the variable for itself"]),
]
NET = "prs 1\nnode go 0\nnode done 0\nnode X.0.t 0\nnode X.0.f 0\nnode X.a 0\nnode R.0.t 0\nnode R.0.f 0\nnode R.a 0\n"
NET += "in X 1\nout R 1\nrule go -> done+\n"
# scripts that are refused
SCRIPTS: list[tuple[str, list[str]]] = [
    ("X := 1\n", ["`X: 1`"]),
    ("X: [0,1]\n", ["`X: 0 1`", "without brackets"]),
    ("R: all 3\n", ["`R: all`"]),
    ("X: 1 R: 2\n", ["one line for each channel"]),
    ("X 1 0\n", ["`X: 1 0`", "a colon stands right behind"]),
    ("X: 1, 0\n", ["`X: 1 0`", "no commas"]),
    ("# c\nX: 1\n", ["a comment begins with `//`"]),
    ("R: 1 0 1\n", ["`R: 3`", "chpx test"]),
    ("X: one\n", ["in place of `one`"]),
    ("X: -1\n", ["values are unsigned"]),
    ("X = 1\n", ["values stand behind a colon"]),
    ("X : 1\n", ["the colon stands right behind"]),
]


class Mistakes(Case):
    """What is said of each."""

    def test_programs(self) -> None:
        for text, parts in PROGRAMS:
            with self.subTest(text):
                ran = self.chpx("check", self.write("f.chp", text))
                self.assertEqual((ran.status, ran.out), (1, ""))
                self.has(ran.err, parts)

    def test_no_false_hints(self) -> None:
        """Where something else is wrong nothing is said of what to write instead."""
        for text in (
            "var x : 8; begin x := (x + 1] end",
            "var x : 2; begin [x = 1 | x = 2] -> skip end",
            "var x : 2; begin (skip [] x = 1 -> skip) end",
            "var x : 2; begin [x = 3 | -> skip] end",
            "var x : 2; begin [x = 3 -> x < 1] end",
            "var x : 2; begin [x = 3 end",
            "var x : 2; begin *[x := 1;",
        ):
            with self.subTest(text):
                ran = self.chpx("check", self.write("f.chp", text))
                self.has(ran.err, ["expected here: "])
                self.assertNotIn("write instead", ran.err)

    def test_scripts(self) -> None:
        self.write("net.prs", NET)
        for text, parts in SCRIPTS:
            with self.subTest(text):
                ran = self.chpx("simulate", "net.prs", self.write("net.script", text))
                self.assertEqual((ran.status, ran.out), (8, ""))
                self.has(ran.err, ["chp: 8 50 BadLine", "write instead: ", *parts])

    def test_other_files(self) -> None:
        """A file of one kind where another is wanted."""
        self.write("net.prs", NET), self.write("net.script", "X: 1\n"), self.write("f.chp", "begin skip end\n")
        for words, parts in (
            (["simulate", "f.chp", "net.script"], ["looks like a program, and a rule file is wanted", "chpx compile"]),
            (["check", "net.prs"], ["looks like a rule file, and a program is wanted"]),
            (["simulate", "net.prs", "f.chp"], ["looks like a program, and a script is wanted"]),
            (["simulate", "net.script", "net.prs"], ["looks like a script, and a rule file is wanted"]),
            (["unwave", "net.prs"], ["looks like a rule file, and a wave file is wanted"]),
        ):
            with self.subTest(words):
                ran = self.chpx(*words)
                self.assertIn(ran.status, (1, 8))
                self.has(ran.err, parts)

    def test_words(self) -> None:
        """An option that a command can't be without, and what may stand in its place."""
        self.write("net.prs", NET)
        told = ["a form: chpx bench PRS --peer NAME", "a form: chpx bench PRS --device NAME ..", "--peer ramp and echo",
                "--device source, sink, echo, fifo, memory, and files FILE.py"]
        self.has(self.chpx("bench", "net.prs").err, ["--peer NAME is missing", *told])
        self.has(self.chpx("--unproved", "bench", "net.prs").err, ["lacks --peer NAME", "nothing was built", *told])
