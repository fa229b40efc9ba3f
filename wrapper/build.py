"""Proves the crates of the program and builds it, and `chp_pace` beside it, by `rt ci` over a copy of them.

`rt ci` proves the crates side by side, those first on which the longest chain of others stands. It keeps on this
machine what it has proved, so a build that was broken off goes on where it was; and since it is the gate's own command,
a build takes what a gate has proved here, and a gate what a build has.
"""

from __future__ import annotations

import contextlib
import fcntl
import os
import re
import shutil
import signal
import subprocess
import sys
import tempfile
import threading
import time
from collections.abc import Iterator
from typing import TextIO

from wrapper.crates import CRATES, HOME, PROGRAMS, READ, TOP, files_of, say
from wrapper.watch import Watch, in_words

BUILT = {name: os.path.join(CRATES, name, "out", name) for name in PROGRAMS}
PROGRAM = BUILT["chpc"]
LOG = os.path.join(HOME, "out", "build.log")


def is_current(below: dict[str, list[str]]) -> bool:
    """Whether the programs are there, and no file that they are made of is newer."""
    if not all(os.access(program, os.X_OK) for program in BUILT.values()):
        return False
    built = min(os.stat(program).st_mtime_ns for program in BUILT.values())
    return all(os.stat(file).st_mtime_ns <= built for crate in below for file in files_of(crate, *READ))


@contextlib.contextmanager
def copied(below: dict[str, list[str]]) -> Iterator[str]:
    """A folder with what these crates are made of, laid out as a repository, without what only the gate reads."""
    with tempfile.TemporaryDirectory(prefix="chpc-build-") as room:
        os.mkdir(os.path.join(room, ".git"))  # so it is the top of one
        for crate in below:
            for name in os.listdir(os.path.join(CRATES, crate)):
                source, target = os.path.join(CRATES, crate, name), os.path.join(room, "crates", crate, name)
                if name in (*READ, "data"):
                    shutil.copytree(source, target)
                elif os.path.isfile(source):
                    os.makedirs(os.path.dirname(target), exist_ok=True)
                    shutil.copyfile(source, target)
        with open(os.path.join(TOP, "crates.txt"), encoding="utf-8") as file:
            lines = [line for line in file if line.split(":")[0].split()[:1] and line.split(":")[0].split()[0] in below]
        with open(os.path.join(room, "crates.txt"), "w", encoding="utf-8") as file:
            file.writelines(lines)
        shutil.copyfile(os.path.join(TOP, "HANDLES"), os.path.join(room, "HANDLES"))
        yield room


def called(room: str, log: TextIO) -> Iterator[str]:
    """Calls `rt ci` there, and gives what it says line by line, which goes to the log too. Where this process is ended
    it ends that too."""
    run = subprocess.Popen(["rt", "ci"], cwd=room, start_new_session=True, errors="replace", stdin=subprocess.DEVNULL,
                           stdout=subprocess.PIPE, stderr=subprocess.STDOUT)
    assert run.stdout is not None
    try:
        for line in run.stdout:
            log.write(line)
            log.flush()
            yield line.rstrip("\n")
    finally:
        if run.poll() is None and sys.exc_info()[0] is not None:
            os.killpg(run.pid, signal.SIGTERM)
        run.wait()


def failed(why: str, lines: list[str]) -> int:
    """Says what went wrong, with the last lines about it."""
    say(f"{why}; all that was said is in {os.path.relpath(LOG)}, the end of it:")
    print(*lines[-20:], sep="\n", file=sys.stderr)
    return 70


def prove_and_link(below: dict[str, list[str]], log: TextIO) -> int:
    """Proves the crates, and compiles and links the program: 0, or 70."""
    began, watch = time.time(), Watch(below)
    say(f"proving the {len(below)} crates of the program, and building it; from nothing this takes about "
        f"{in_words(watch.slow * watch.whole)}. Ctrl-C breaks it off, and the next call goes on")
    threading.Thread(target=watch.run, daemon=True).start()
    parts: dict[str, list[str]] = {}
    part = wrong = end = ""
    try:
        with copied(below) as room:
            for line in called(room, log):
                head = re.match(r"== (\w+)$", line)
                told = re.match(r"rt: (\w+) (proved|is kept|NOT PROVED)", line)
                part = head[1] if head else part
                parts.setdefault(part, []).append(line)
                if told and told[2] == "NOT PROVED":
                    wrong = wrong or told[1]
                elif told:
                    watch.proved(told[1], told[2] == "is kept")
                end = line
            if wrong or not re.match(r"\d+ passed, 0 failed$", end):
                why = f"{wrong} wasn't proved" if wrong else "the program wasn't built"
                return failed(why, parts.get(wrong or part, []))
            for name, program in BUILT.items():
                os.makedirs(os.path.dirname(program), exist_ok=True)
                put_in_place(os.path.join(room, "crates", name, "out", name), program)
    finally:
        watch.ended.set()
    for program in BUILT.values():
        os.utime(program, (began, began))  # so that a file which changed meanwhile is newer
    say(f"built, in {in_words((time.time() - began) / 60)}")
    return 0


def put_in_place(made: str, program: str) -> None:
    """Puts a program where it is called, at once, whatever else is put there meanwhile."""
    own = f"{program}.{os.getpid()}"
    shutil.copy(made, own)
    os.replace(own, program)


def break_off(*_: object) -> None:
    """What a signal does that would end the build: the same as Ctrl-C."""
    raise KeyboardInterrupt


def build(below: dict[str, list[str]]) -> int:
    """Proves and builds what is to be: 0, 70 or 130."""
    for number in (signal.SIGINT, signal.SIGTERM, signal.SIGHUP):
        signal.signal(number, break_off)
    try:
        os.makedirs(os.path.dirname(LOG), exist_ok=True)
        with open(f"{LOG}.lock", "w", encoding="utf-8") as lock:
            fcntl.flock(lock, fcntl.LOCK_EX)  # a second call waits for the first one, and takes what that has built
            if is_current(below):
                return 0
            with open(LOG, "w", encoding="utf-8", errors="replace") as log:
                return prove_and_link(below, log)
    except KeyboardInterrupt:
        say("broken off; what was proved is kept")
        return 130
    except OSError as error:
        say(f"the program can't be built: {error}")
        return 70
