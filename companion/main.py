"""What `./chpx` does with its words: the companion's own commands here, all others by the proved program."""

from __future__ import annotations

import importlib
import os
import signal
import sys
from collections.abc import Sequence

from companion import bench, check, options, program
from companion.causes import NO_PAGES
from companion.explain import explained
from companion.forms import DEVICE_FORM, forms, forms_of, told_forms
from companion.own import OWN
from companion.program import Ended, Refusal
from companion.terminal import Paint, Progress

VERSION = "1"
HEAD = """\
chpx calls chpc, the proved compiler and simulator, and says more plainly what it answers.

Nothing that chpx does itself is proved: its places, explanations, pictures and hunts are there to
help, and add nothing to what chpc promises. What stands on standard output of a command of chpc is
chpc's, byte for byte, with its status.
"""
TAIL = """\
`chpx COMMAND --help` tells more of one; `chpx bench PRS --device NAME` runs a circuit against a device
in Python. A file `-` is standard input. The program that is called is ./chpc of the folder of chpx, or
the one that the variable CHPC names; with --unproved before the words one that is compiled without a
proof. NO_COLOR takes the colours away. docs/COMPANION.md shows it all.
"""


def help_text() -> str:
    """What `chpx --help` prints."""
    lines = [HEAD, "commands of chpc, with its answer explained:"]
    lines += [f"  {form.text}" for form in forms()] or [f"  {NO_PAGES}"]
    lines += ["", "commands of chpx, which make many calls of chpc:"]
    lines += [f"  {name:9} {about}" for name, (_, about) in OWN.items()]
    return "\n".join([*lines, "", TAIL])


def help_of(command: str) -> str:
    """What `chpx COMMAND --help` prints for a command of chpc."""
    lines = [f"chpx calls `chpc {command}`; on standard output comes, with status 0,", ""]
    for form in forms_of(command):
        lines += [f"  chpx {form.text}", f"      {form.about}", ""]
    if command == "bench":
        lines += [f"  chpx {DEVICE_FORM[0]}", f"      {DEVICE_FORM[1]}", ""]
    lines.append("More of it is in docs/COMMANDS.md. Nothing that chpx adds to it is proved.")
    return "\n".join(lines)


def own(command: str, words: Sequence[str]) -> int:
    """Runs one of the companion's own commands."""
    module = importlib.import_module(f"companion.{OWN[command][0]}")
    return int(module.main(words))


def call(words: Sequence[str]) -> int:
    """Hands a command to the proved program, and explains how it ended."""
    with Progress(" ".join(words[:1]) or "chpc") as progress:
        answer = program.relay(words, progress)
    tell(words, answer)
    return answer.status


def tell(words: Sequence[str], answer: program.Answer) -> None:
    """Writes the explanation below the fixed line."""
    lines = explained(words, answer, Paint(sys.stderr))
    if lines:
        print("\n".join(lines), file=sys.stderr)


def dispatch(words: Sequence[str]) -> int:
    """Does what the words ask for."""
    if words and words[0] in ("--help", "-h", "help"):
        print(help_text(), end="")
        return 0
    if words and words[0] == "--version":
        print(f"chpx {VERSION}, which isn't proved; it calls {program.path()}")
        return 0
    named = options.with_standard_input(words)
    if words and words[0] in OWN:
        return own(words[0], named[1:])
    if bench.is_asked(named):
        return bench.main(named[1:])
    asked = named[: named.index("--")] if "--" in named else named
    if words and words[0] == "check" and "--json" in asked[1:]:
        return check.main([word for word in named[1:] if word != "--json"])
    if {"--help", "-h"} & {*asked[1:]} and (forms_of(words[0]) or not forms()):
        print(help_of(words[0]) if forms() else f"`chpx {words[0]}` calls `chpc {words[0]}` {NO_PAGES}")
        return 0
    return call(named)


def without_proof(words: Sequence[str]) -> None:
    """Has all answers come from the program of which nothing is proved, and compiles it where it isn't there, unless
    the words are plainly wrong."""
    if not os.path.isdir(os.path.join(program.TOP, "wrapper")):
        raise Refusal("--unproved compiles a program, and no source of one lies beside companion", 127)
    from wrapper import unproved
    from wrapper.words import fault

    # what only chpx has: `check --json`, and standard input as `-`
    asked = [os.devnull if word == "-" else word for word in words if (words[0], word) != ("check", "--json")]
    wrong = fault(asked) if words[0] not in OWN and not bench.is_asked(words) else None
    if wrong:
        told = told_forms(words[0]) if wrong[0] == 2 else []
        raise Refusal("\n".join([f"{wrong[1]}; nothing was built", *told]), wrong[0])
    status = unproved.ready()
    if status:
        raise Refusal("without that program there is no answer", status)
    os.environ["CHPC"] = unproved.PROGRAM


def main(words: Sequence[str]) -> int:
    """The same, with what stops it told on standard error."""
    sys.setrecursionlimit(20_000)
    if sys.stdout is None:
        print("chpx: the output couldn't be written: standard output is closed", file=sys.stderr)
        return 4
    signal.signal(signal.SIGTERM, signal.default_int_handler)  # so that folders of its own go with it
    try:
        if words[:1] == ["--unproved"]:
            words = words[1:]
            if words and not {"--help", "-h", "help", "--version"} & {*words}:
                without_proof(words)
        status = dispatch(words)
        sys.stdout.flush()
        return status
    except Refusal as refusal:
        print(f"chpx: {refusal.text}", file=sys.stderr)
        return refusal.status
    except Ended as ended:
        sys.stderr.write(ended.answer.err.decode("utf-8", "replace"))
        tell(ended.words, ended.answer)
        return ended.answer.status
    except BrokenPipeError:
        os.dup2(os.open(os.devnull, os.O_WRONLY), sys.stdout.fileno())
        return 4
    except OSError as error:
        print(f"chpx: the output couldn't be written: {error.strerror}", file=sys.stderr)
        os.dup2(os.open(os.devnull, os.O_WRONLY), sys.stdout.fileno())
        return 4
    except KeyboardInterrupt:
        print("chpx: broken off", file=sys.stderr)
        return 130
    finally:
        options.leave()
