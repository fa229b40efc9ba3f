"""What may stand in an answer of `chpc`, and the room in which bench/fuzz asks for one.

An answer is judged by itself here: its status is one that the command has, what it says is the line of that status, with places
that lie within the text, and nothing is written beside a refusal.
"""
import collections
import contextlib
import os
import re
import signal
from typing import NamedTuple

# Besides 0; 2 and 3 come only where the words are changed, and 4 and 6 not at all.
STATUSES = {"check": {1, 7}, "compile": {1, 7, 16}, "expand": {1, 7}, "run": {1, 7, 8, 16}, "simulate": {5, 7, 8, 9},
            "bench": {5, 7, 8, 9, 17}, "waves": {5, 7, 8}, "unwave": {7, 8}, "migrate": {7, 8}, "grow": set()}
AGAINST, OF_WORDS, WITH_OUTPUT = {1, 10}, {2, 3}, {0, 5, 10}
LINES = {0: rb"", 1: rb"chp: (\d+) (\w+) at (\d+)\.\.(\d+)(?: and (\d+)\.\.(\d+))?\n", 2: rb"chp: 2 usage\n", 3: rb"chp: 3 read .*\n",
         5: rb"chp: 5 hazard\n", 7: rb"chp: 7 (bytes .* over \d+|forms \d+|nodes \d+|values over 1048576)\n",
         8: rb"chp: 8 (\d+) (\w+) at line (\d+)\n", 9: rb"chp: 9 order .*\n", 10: rb"chp: 10 differs\n", 16: rb"chp: 16 channel .*\n",
         17: rb"chp: 17 peer .*\n"}
NAME, NUMBER = rb"[A-Za-z]\w*", rb"\d\w*"
# The causes for which a program is refused, and what may stand at their places.
CAUSES = {10: ("BadToken", rb"\w+|\W"), 11: ("Syntax", rb".+"), 12: ("TooDeep", rb"[(\[{]"), 13: ("Probe", rb"#"),
          14: ("Arbiter", rb"\[\|"), 15: ("TooManyGuards", rb"\[\]"), 20: ("DoubleName", NAME), 21: ("Undeclared", NAME),
          22: ("WrongKind", NAME), 23: ("Direction", NAME), 24: ("Width", rb".+"), 25: ("ConstantTooWide", NUMBER),
          26: ("UnknownWidth", rb".+"), 27: ("BadSlice", rb"[A-Za-z].*\]"), 28: ("WidthRange", NUMBER),
          30: ("SharedVariable", NAME), 31: ("SharedSend", NAME), 32: ("SharedReceive", NAME), 33: ("SharedProcedure", NAME),
          34: ("DoubleProcedure", NAME), 35: ("UnknownProcedure", NAME), 36: ("UnusedProcedure", NAME), 37: ("NestedCall", NAME)}
# Those of other files, by the tens of their numbers.
FAULTS = {4: "BadLine UnknownNode DoubleRule DrivenWire TooMany BadVersion OutOfOrder DoubleName BadFirst NoReset",
          5: "BadLine NoSuchChannel TooWide DoubleChannel TooManyValues", 6: "BadLine UnknownNode TooLarge DoubleNode",
          7: "BadLine UnknownId TimeBack NoChange TooMany"}
REPORT = re.compile(rb"end (rest|spent|both \S+ at \d+|unstable \S+ at \d+|protocol \S+ at \d+)\n(?:moves|rounds) (\d+)\n(?:time (\d+)\n)?"
                    rb"done ([01])\n((?:[A-Za-z]\w*:(?: \d+)*\n)*)(?:against (agrees|channels|differs \S+ at \d+)\n)?")


class Answer(NamedTuple):
    status: int
    out: bytes
    said: bytes


class Report(NamedTuple):
    """A report of a run: of how many moves or rounds, and what has passed, a name and its values for each channel."""
    ending: bytes = b""
    count: int = 0
    time: int = 0
    done: bytes = b""
    passed: tuple = ()
    against: bytes = b""


def contents(file):
    """All that was written to a file that is open."""
    return os.pread(file, os.fstat(file).st_size, 0)


def cut_off(number, frame):
    raise TimeoutError


def run_to_end(program, words, out, said, seconds):
    """Runs the program with these files as its streams: its status, and the processor seconds that it took."""
    streams = [(os.POSIX_SPAWN_OPEN, 0, os.devnull, os.O_RDONLY, 0), (os.POSIX_SPAWN_DUP2, out, 1), (os.POSIX_SPAWN_DUP2, said, 2)]
    run = os.posix_spawn(program, [program, *words], os.environ, file_actions=streams,
                         setsigdef=(signal.SIGPIPE, signal.SIGXFSZ))
    signal.signal(signal.SIGALRM, cut_off)
    signal.setitimer(signal.ITIMER_REAL, seconds)
    try:
        _, status, used = os.wait4(run, 0)
    except TimeoutError:
        with contextlib.suppress(ProcessLookupError, ChildProcessError):  # where it ended at that very time
            os.kill(run, signal.SIGKILL)
            os.waitpid(run, 0)
        raise
    finally:
        signal.setitimer(signal.ITIMER_REAL, 0)
    return os.waitstatus_to_exitcode(status), used.ru_utime + used.ru_stime


class Room:
    """A folder for one input, the current one: its files, the calls that were made with them, how they ended, and what was found."""

    def __init__(self, program, folder):
        self.program, self.folder, self.last = program, folder, None
        self.files, self.calls, self.found, self.counts = {}, [], [], collections.Counter()

    def write(self, name, text):
        self.files[name] = text if isinstance(text, bytes) else text.encode("ascii")
        with open(f"{self.folder}/{name}", "wb") as file:
            file.write(self.files[name])

    def holds(self, is_so, what):
        """Notes what doesn't hold, after the call that was made last."""
        if not is_so:
            self.found.append(f"{what}; after `{self.calls[-1]}`")

    def call(self, *words, is_changed=False):
        """What the program answers to these words, which may have been changed to any ones."""
        words = [word if isinstance(word, bytes) else str(word).encode("ascii") for word in words]
        self.calls.append(" ".join(word.decode("ascii", "backslashreplace") for word in words))
        answer = self.answered(words)
        self.counts["changed words" if is_changed else words[0].decode("ascii"), answer.status] += 1
        self.judge(words, answer, is_changed)
        self.last = words, answer
        return answer

    def answered(self, words):
        """Calls the program, for as long as its files allow. What it writes goes into memory, so nobody has to read beside it."""
        size = sum(len(text) for name, text in self.files.items() if name.encode("ascii") in words)
        bound = 2 + 20 * size / 1e6
        out, said = (os.memfd_create(name) for name in ("out", "said"))
        try:
            status, took = run_to_end(self.program, words, out, said, 30 * bound)
            answer = Answer(status, contents(out), contents(said))
        except TimeoutError:
            return Answer("none", b"", b"")
        finally:
            os.close(out)
            os.close(said)
        self.holds(took <= bound, f"{took:.1f} processor seconds for {size} bytes")
        return answer

    def judge(self, words, answer, is_changed):
        """Whether the status is one of the command's, and the line one of the status's."""
        may = {0} | STATUSES.get(words[0].decode("ascii", "replace") if words else "", set())
        may |= AGAINST if any(word.startswith(b"--against") for word in words) else set()
        may |= OF_WORDS if is_changed else set()
        told = answer.status in LINES and re.fullmatch(LINES[answer.status], answer.said, re.DOTALL)
        self.holds(answer.status in may and told, f"status {answer.status}, {answer.said!r}")
        self.holds(answer.status in WITH_OUTPUT or not answer.out, f"{len(answer.out)} bytes beside status {answer.status}")
        if told and answer.status == 1 and not is_changed:
            name = words[words.index(b"--against") + 1] if b"--against" in words else words[-1 if words[0] == b"compile" else 1]
            self.holds(is_cause(told, self.files[name.decode()]), f"the place of {answer.said!r}")
        if told and answer.status == 8 and not is_changed:
            places = {5: 2, 6: words.index(b"--delays") + 1 if b"--delays" in words else 0}
            name = words[places.get(int(told[1]) // 10, 1)]
            self.holds(is_fault(told, self.files[name.decode()]), f"the line of {answer.said!r}")

    def repeat(self):
        """Makes the last call again, which has to answer the same."""
        words, answer = self.last
        self.holds(self.answered(words) == answer, "another answer to the same call")

    def report(self, answer):
        """An answer as a report; an empty one where it is none."""
        told = REPORT.fullmatch(answer.out)
        self.holds(told, f"no report: {answer.out[:200]!r}")
        if not told:
            return Report()
        self.holds((answer.status == 5) == (told[1] not in (b"rest", b"spent")), f"status {answer.status} of {told[1]}")
        passed = tuple((line.split(b":")[0], line.split()[1:]) for line in told[5].splitlines())
        return Report(told[1], int(told[2]), int(told[3] or 0), told[4], passed, told[6])


def is_cause(told, text):
    """Whether a line tells a cause by its name, with places where it may stand in the text."""
    number, start, end = int(told[1]), int(told[3]), int(told[4])
    name, form = CAUSES.get(number, ("", b""))
    if told[2].decode() != name or (told[5] is not None) != (30 <= number <= 33) or not start <= end <= len(text):
        return False
    if told[5] and not (end <= int(told[5]) and text[start:end] == text[int(told[5]) : int(told[6])]):
        return False
    is_at_end = number == 11 and start == end == len(text)
    return is_at_end or re.fullmatch(form, text[start:end], re.DOTALL) is not None


def is_fault(told, text):
    """Whether a line tells a fault by its name, at a line that the text has, or at the one behind its last."""
    names, place = FAULTS.get(int(told[1]) // 10, "").split(), int(told[1]) % 10
    return place < len(names) and told[2].decode() == names[place] and 1 <= int(told[3]) <= text.count(b"\n") + 1


def is_prefix(first, second):
    """Whether what passed on each channel is a prefix of what passed there in the other report."""
    channels = dict(second.passed)
    return all(name in channels and values == channels[name][: len(values)] for name, values in first.passed)


def fit(first, second):
    """Whether two reports of one program under one script go together: none passes what one that came to rest hasn't."""
    rests = first.ending == b"rest", second.ending == b"rest"
    if all(rests):
        return first.passed == second.passed and first.done == second.done
    if [name for name, _ in first.passed] != [name for name, _ in second.passed]:
        return False
    are_fronts = all(one[: len(two)] == two[: len(one)] for (_, one), (_, two) in zip(first.passed, second.passed))
    return are_fronts and (not rests[0] or is_prefix(second, first)) and (not rests[1] or is_prefix(first, second))


def is_tree(lines, count):
    """Whether the parts that `expand` prints fill the nodes of the circuit, each within the one around it."""
    at, around = 2, []
    for line in lines:
        start, size, depth = *map(int, line.split()[-2:]), len(line) - len(line.lstrip(b" "))
        del around[depth // 2 :]
        if depth == 0:
            if start != at:
                return False
            at += size
        elif not around or start < around[-1][0] or start + size > around[-1][1]:
            return False
        around.append((start, start + size))
    return at == count and any(line.startswith(b"root go done ") for line in lines)
