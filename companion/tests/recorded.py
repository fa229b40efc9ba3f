"""Recorded answers of chpc: which words over which files are answered by what.

A call is known by its words, those that name a file by what the file holds. The file `calls` has a line for each, its
key and that of its answer, and `answers` one for each answer, as JSON, packed where it is long. Where the variable
CHPX_RECORD names a folder, the program that CHPX_PROGRAM names is called instead, and each answer is kept in that
folder, with the words.
"""

from __future__ import annotations

import base64
import functools
import hashlib
import json
import mmap
import os
import stat
import subprocess
import sys
import zlib
from collections.abc import Sequence

from companion.program import Answer, shell_status

HERE = os.path.dirname(os.path.abspath(__file__))
RECORDED = os.path.join(HERE, "recorded")
LONG = 1000  # characters from which on an answer is packed
Kept = dict[str, object]


def digest(data: bytes, length: int) -> str:
    """The first hexadecimal digits of a checksum."""
    return hashlib.sha256(data).hexdigest()[:length]


def is_full() -> bool:
    """Whether standard output is the device that takes no byte."""
    it = os.fstat(1)
    return stat.S_ISCHR(it.st_mode) and (os.major(it.st_rdev), os.minor(it.st_rdev)) == (1, 7)


def key_of(words: Sequence[str], full: bool) -> str:
    """The key of a call."""
    told = ["full"] if full else []
    for word in words:
        if os.path.isfile(word):
            with open(word, "rb") as file:
                told.append("file " + digest(file.read(), 32))
        else:
            told.append("word " + word)
    return digest("\n".join(told).encode(), 12)


def without_names(text: str, words: Sequence[str]) -> str:
    """A fixed line with the numbers of words in place of files' names."""
    for at, word in enumerate(words):
        if os.path.isfile(word):
            text = text.replace(f" {word} ", f" {{{at}}} ")
    return text


def with_names(text: str, words: Sequence[str]) -> str:
    """The other way round."""
    for at, word in enumerate(words):
        text = text.replace(f" {{{at}}} ", f" {word} ")
    return text


def packed(text: str) -> str:
    """A text, if it is long in fewer characters: `=` and its compressed bytes."""
    if len(text) < LONG:
        return text
    return "=" + base64.b64encode(zlib.compress(text.encode(), 9)).decode()


def unpacked(text: str) -> str:
    """The text that was packed."""
    return zlib.decompress(base64.b64decode(text[1:])).decode() if text.startswith("=") else text


@functools.cache
def store() -> tuple[dict[str, str], dict[str, str]]:
    """The recorded calls, and the answers by their keys, as JSON."""
    with open(os.path.join(RECORDED, "calls"), encoding="ascii") as file:
        calls = dict(line.split() for line in file)
    with open(os.path.join(RECORDED, "answers"), encoding="utf-8") as file:
        answers = {line[:8]: line[9:] for line in file}
    return calls, answers


def found_in(name: str, key: str) -> str | None:
    """What stands behind a key in one of the two files, whose lines begin with keys; the rest isn't read."""
    path = os.path.join(RECORDED, name)
    with open(path, "rb") as file, mmap.mmap(file.fileno(), 0, access=mmap.ACCESS_READ) as lines:
        at = 0 if lines[: len(key)] == key.encode() else lines.find(f"\n{key} ".encode()) + 1
        if lines[at : at + len(key)] != key.encode():
            return None
        return lines[at + len(key) + 1 : lines.find(b"\n", at)].decode()


def called(words: Sequence[str], full: bool) -> Kept:
    """Calls the program, and keeps the answer."""
    out = 1 if full else subprocess.PIPE
    run = subprocess.run(
        [os.environ["CHPX_PROGRAM"], *words], stdin=subprocess.DEVNULL, stdout=out, stderr=subprocess.PIPE, check=False
    )
    err = without_names(run.stderr.decode("latin-1"), words)
    kept: Kept = {"status": shell_status(run.returncode), "out": (run.stdout or b"").decode("latin-1"), "err": err}
    key = key_of(words, full)
    name = os.path.join(os.environ["CHPX_RECORD"], key)
    with open(f"{name}.{os.getpid()}.{id(kept)}", "w", encoding="utf-8") as file:
        json.dump({"words": list(words), "answer": kept}, file)
    os.replace(file.name, name)
    return kept


def answer(words: Sequence[str], full: bool = False) -> Answer:
    """What chpc answers to these words, as it was recorded, or in recording as it does now."""
    if "CHPX_RECORD" in os.environ:
        kept = called(words, full)
    else:
        key = key_of(words, full)
        name = found_in("calls", key)
        if name is None:
            raise LookupError(f"no answer was recorded for: {' '.join(words)} ({key}); bench/companion records anew")
        kept = json.loads(unpacked(found_in("answers", name) or ""))
    err = with_names(str(kept["err"]), words)
    return Answer(int(str(kept["status"])), str(kept["out"]).encode("latin-1"), err.encode("latin-1"))


def stand_in(folder: str) -> str:
    """Writes a program into a folder that answers as chpc did, and tells its path: `replay`, by this very Python."""
    path = os.path.join(os.path.abspath(folder), "recorded-chpc")
    with open(path, "w", encoding="utf-8") as file:
        file.write(f"#!{sys.executable} -IS\nimport runpy\n")
        file.write(f"runpy.run_path({os.path.join(HERE, 'replay')!r}, run_name='__main__')\n")
    os.chmod(path, 0o755)
    return path


def keep(found: dict[str, Kept], folder: str) -> None:
    """Writes answers by the keys of their calls in the form that `store` reads."""
    texts = {key: json.dumps(kept, sort_keys=True) for key, kept in found.items()}
    names = {text: digest(text.encode(), 8) for text in texts.values()}
    with open(os.path.join(folder, "calls"), "w", encoding="ascii") as file:
        file.writelines(f"{key} {names[text]}\n" for key, text in sorted(texts.items()))
    with open(os.path.join(folder, "answers"), "w", encoding="utf-8") as file:
        file.writelines(f"{name} {packed(text)}\n" for text, name in sorted(names.items(), key=lambda it: it[1]))
