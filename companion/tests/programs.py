"""The programs of the tests: three deadlocks, and a FIFO of three places."""

from __future__ import annotations

# an opcode without an arm: 2 comes
ALU = """// Adds or subtracts, as the opcode says; 2 and 3 have no arm.
in O : 2;
in A : 4;
in B : 4;
out R : 4;
var o : 2;
var a : 4;
var b : 4;
begin
  *[O?o, A?a, B?b;
    [o = 0 -> R!a + b
    [] o = 1 -> R!a - b]]
end
"""
ALU_SCRIPT = "O: 0 2 1\nA: 3 7 1\nB: 4 2 5\n"

# two true guards: 3 is below 4 and above 2
BOTH = """in A : 3;
out L : 1;
out H : 1;
var a : 3;
begin
  *[A?a; [a < 4 -> L!1 [] a > 2 -> H!1]]
end
"""
BOTH_SCRIPT = "A: 0 7 3 1\n"

# two stages that each send first
RING = """chan p : 4;
chan q : 4;
out R : 4;
var x : 4 = 5;
var y : 4 = 9;
begin
  *[p!x; q?x; R!x]
  || *[q!y + 1; p?y]
end
"""

# a send and its receive in one sequence
SELF = "chan X : 1;\nvar v : 1;\nbegin\n  X!1;\n  X?v\nend\n"

FIFO = """in L : 1;
chan a : 1;
chan b : 1;
out R : 1;
var x : 1;
var y : 1;
var z : 1;
begin
  *[L?x; a!x]
  || *[a?y; b!y]
  || *[b?z; R!z]
end
"""
FIFO_SCRIPT = "L: 1 0 1 1 0\n"
