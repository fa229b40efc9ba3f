"""The companion's own commands: the module of each, and what it does in a line."""

from __future__ import annotations

OWN = {
    "why": ("why", "what is under way where a run stops, and what each waits for"),
    "hunt": ("hunt", "looks for hazards in a rule file by many orders and delays"),
    "view": ("view", "writes a wave with channels and variables as vectors; causes; latency and cycle time"),
    "events": ("events", "what passed in a run, in one order over all channels"),
    "cover": ("cover", "what of a program never happened in some runs"),
    "profile": ("profile", "where the time of a run goes, by statement, by turn of a loop and by channel"),
    "pace": ("pace", "how long n rounds take at most, as is proved, and how long rounds of a run took"),
    "buffered": ("buffered", "the text of a program with a one-place buffer on a channel"),
    "stat": ("stat", "how large a circuit is, by part and by kind of part"),
    "tree": ("picture", "draws the parts of a circuit"),
    "lint": ("lint", "what a program that is accepted may still be doing wrong"),
    "sort": ("sort", "brings a rule file's lines into the one order"),
    "test": ("test", "checks programs by test files: what has to pass under a script"),
    "link": ("link", "makes one program of several that talk by channels of one name"),
}
