"""Calls that chpc refuses, with what the companion marks in each."""

from __future__ import annotations

# for each cause of a refused text a text, the place as LINE:COLUMN, and how many carets there are
TEXTS = {
    10: ("begin\n  x := 1_0\nend\n", "2:8", 3),
    11: ("begin\n  skip;\nend\n", "3:1", 3),
    12: ("begin " + "(" * 257 + "skip" + ")" * 257 + " end", "1:263", 1),
    13: ("in X : 1;\nbegin [#X -> skip] end", "2:8", 1),
    14: ("begin\n\t[| 1 -> skip |]\nend", "2:2", 2),
    15: ("var x : 5; begin [" + " []\n".join(f"x = {at} -> skip" for at in range(17)) + "] end", "16:16", 2),
    20: ("var x : 1;\nchan x : 2;\nbegin skip end", "2:6", 1),
    21: ("begin y := 0 end", "1:7", 1),
    22: ("var x : 1; begin x!0 end", "1:18", 1),
    23: ("in X : 1; begin X!1 end", "1:17", 1),
    24: ("var x : 4; var y : 8;\nbegin\n  x := y\nend", "3:8", 1),
    25: ("out X : 1; begin X!2 end", "1:20", 1),
    26: ("begin [1 = 1 -> skip] end", "1:8", 5),
    27: ("var x : 4; var b : 1; begin b := x[4] end", "1:34", 4),
    28: ("var x : 65; begin skip end", "1:9", 2),
    30: ("var x : 1; out R : 1;\nbegin\n  x := 1\n  || R!x\nend", "3:3", 1),
    31: ("out X : 1; begin X!0 , X!1 end", "1:18", 1),
    32: ("in L : 1; var a : 1; var b : 1; begin L?a || L?b end", "1:39", 1),
}
# for each cause of a refused line: the files, the words, the place, and the word below the carets
NET = "prs 1\nnode go 0\nnode done 0\nnode X.0.t 0\nnode X.0.f 0\nnode X.a 0\nin X 1\nrule go -> done+\n"
WAVE = "$timescale 1 ns $end\n$scope module top $end\n$var wire 1 ! go $end\n$var wire 1 \" done $end\n$upscope $end\n"
RULES_CALL, SCRIPT_CALL = ("simulate", "net", "script"), ("waves", "net", "script")
DELAY_CALL, WAVE_CALL = ("simulate", "net", "script", "--delays", "delays"), ("unwave", "wave")
LINES = {
    40: ({"net": NET.replace("in X 1", "in X 1 ")}, RULES_CALL, "net:7:1", "in X 1 "),
    41: ({"net": NET + "rule go & gone -> done-\n"}, RULES_CALL, "net:9:11", "gone"),
    42: ({"net": NET + "rule ~go -> done+\n"}, RULES_CALL, "net:9:13", "done+"),
    43: ({"net": NET + "rule done -> X.0.t+\n"}, RULES_CALL, "net:9:14", "X.0.t+"),
    45: ({"net": NET.replace("prs 1", "prs 7")}, RULES_CALL, "net:1:1", "prs 7"),
    46: (
        {"net": NET.replace("rule go -> done+", "rule ~go -> done-\nrule go -> done+")}, RULES_CALL, "net:9:12", "done+"
    ),
    47: ({"net": NET.replace("node X.a 0", "node X.a 0\nnode X.a 0")}, RULES_CALL, "net:7:6", "X.a"),
    48: ({"net": NET.replace("X.0.t 0", "X.0.t 1")}, RULES_CALL, "net:7:4", "X"),
    49: ({"net": NET}, (*RULES_CALL, "--power", "low"), "net:1:1", "prs 1"),
    50: ({"script": "X: 1 one\n"}, SCRIPT_CALL, "script:1:1", "X: 1 one"),
    51: ({"script": "// none\nY: 1\n"}, SCRIPT_CALL, "script:2:1", "Y"),
    52: ({"script": "X: 0 1 2\n"}, SCRIPT_CALL, "script:1:8", "2"),
    53: ({"script": "X: 0\nX: 1\n"}, SCRIPT_CALL, "script:2:1", "X"),
    60: ({"delays": "go 1\n"}, DELAY_CALL, "delays:1:1", "go 1"),
    61: ({"delays": "go 1 1\ngone 1 1\n"}, DELAY_CALL, "delays:2:1", "gone"),
    62: ({"delays": "go 1 1000001\n"}, DELAY_CALL, "delays:1:6", "1000001"),
    63: ({"delays": "go 1 1\ngo 1 2\n"}, DELAY_CALL, "delays:2:1", "go"),
    70: ({"wave": WAVE + "$end\n"}, WAVE_CALL, "wave:6:1", "$end"),
    71: ({"wave": WAVE + '$enddefinitions $end\n#0\n0!\n0"\n#3\n1#\n'}, WAVE_CALL, "wave:11:1", "1#"),
    72: ({"wave": WAVE + '$enddefinitions $end\n#0\n0!\n0"\n#3\n1!\n#2\n0!\n'}, WAVE_CALL, "wave:12:1", "#2"),
    73: ({"wave": WAVE + '$enddefinitions $end\n#0\n0!\n0"\n#3\n0!\n'}, WAVE_CALL, "wave:11:1", "0!"),
}
# wrong words, which of them is marked, and what is said of it
WORDS = {
    ("check",): ("", "FILE is missing: check takes FILE"),
    ("check", "a", "b"): ("b", "one word too many"),
    ("chek", "a"): ("chek", "there is no such command"),
    ("grow", "1", "401"): ("401", "a number from 1 to 400 is wanted here"),
    ("waves", "a", "b", "--power", "low"): ("--power", "waves has no such option"),
    ("simulate", "a", "b", "--seed"): ("--seed", "--seed wants a value behind it"),
    ("simulate", "a", "b", "--order", "oldest", "--delays", "c"): (
        "--order", "--order and --delays don't stand together"
    ),
    ("run", "a", "b", "--rounds=2000000"): ("--rounds=2000000", "a number from 0 to 1000000"),
    ("compile", "--reset", "a", "--reset"): ("--reset", "--reset stands here the second time"),
    (): ("", "a command is missing"),
}
HAZARD = "prs 1\nnode go 0\nnode done 0\nnode a 0\nnode b 0\nnode z 0\n"
HAZARD += "rule go -> a+\nrule go -> b+\nrule a & ~b -> z+\n"
