"""Devices as words name them: those that come with the companion, and those of files in Python."""

from __future__ import annotations

import importlib.util
import os
import re
import sys
import traceback
from collections.abc import Sequence
from dataclasses import dataclass

from companion import options
from companion.devices import KNOWN, Device, Sink
from companion.labels import called
from companion.program import Refusal
from companion.rules import Channel


@dataclass(frozen=True)
class Player:
    """A device with the name by which it was asked for, and its channels."""

    name: str
    device: Device
    channels: list[Channel]

    def call(self, what: str, *given: object) -> object:
        """Calls it; what goes wrong in it is told with the line at which it did."""
        try:
            return getattr(self.device, what)(*given)
        except Refusal:
            raise
        except (Exception, SystemExit) as error:  # pylint: disable=broad-except
            raise Refusal(f"{where(self.name, error)}: `{what}` failed: {type(error).__name__}: {error}") from error


def where(name: str, error: BaseException) -> str:
    """FILE:LINE of the last line of a device's file at which an error passed."""
    path = os.path.abspath(name)
    lines = [it.lineno for it in traceback.extract_tb(error.__traceback__) if os.path.abspath(it.filename) == path]
    if isinstance(error, SyntaxError) and not lines:
        lines = [error.lineno]
    return f"{name}:{lines[-1]}" if lines else name


def class_in(name: str) -> type:
    """The last class that a file in Python defines."""
    options.read(name)
    spec = importlib.util.spec_from_file_location(f"chpx_device_{options.stem(name)}", name)
    assert spec is not None and spec.loader is not None
    module = importlib.util.module_from_spec(spec)
    written, sys.dont_write_bytecode = sys.dont_write_bytecode, True
    try:
        spec.loader.exec_module(module)
    except (Exception, SystemExit) as error:  # pylint: disable=broad-except
        raise Refusal(f"{where(name, error)}: the device can't be loaded: {type(error).__name__}: {error}") from error
    finally:
        sys.dont_write_bytecode = written
    own = [it for it in vars(module).values() if isinstance(it, type) and it.__module__ == module.__name__]
    if not own or not issubclass(own[-1], Device):
        raise Refusal(f"{name}: its last class has to extend Device, from companion.devices")
    return own[-1]


def made_of(name: str) -> Device:
    """A device of a file's last class."""
    try:
        return class_in(name)()
    except TypeError as error:
        raise Refusal(f"{where(name, error)}: its class has to be made without arguments: {error}") from error


def image_in(name: str) -> dict[int, int]:
    """The words of a file by their addresses: hexadecimal numbers between blanks, from address 0 on or from that
    behind the last `@`, which is hexadecimal too."""
    found: dict[int, int] = {}
    at = 0
    for number, line in enumerate(options.read(name).decode("latin-1").split("\n"), 1):
        for word in line.split("//", 1)[0].split():
            told = re.fullmatch(r"(@?)(?:0x)?([0-9A-Fa-f]{1,16})", word)
            if told is None:
                raise Refusal(f"{called(name)}:{number}: {word} is no hexadecimal number, nor an address `@NUMBER`", 8)
            if told[1]:
                at = int(told[2], 16)
            else:
                found[at] = int(told[2], 16)
                at += 1
    return found


def channels_for(word: str, names: Sequence[str], outside: dict[str, Channel], taken: set[str]) -> list[Channel]:
    """The channels that a device is asked for; without names all that no other one has."""
    if not names:
        return [it for it in outside.values() if it.name not in taken]
    for name in names:
        if name not in outside:
            raise Refusal(f"{word}: the circuit has no channel {name} to the outside; it has {', '.join(outside)}", 2)
    return [outside[name] for name in names]


def players(words: Sequence[str], image: str | None, channels: Sequence[Channel]) -> list[Player]:
    """The devices that words `NAME` or `NAME:CHANNEL,..` ask for, and a sink for the channels that none of them has."""
    outside = {it.name: it for it in channels if it.kind != "chan"}
    told = [(name, list(filter(None, rest.split(",")))) for name, _, rest in (word.partition(":") for word in words)]
    every = [name for _, names in told for name in names]
    taken = set(every)
    for name in taken:
        if every.count(name) > 1:
            raise Refusal(f"two devices have the channel {name}; each has channels of its own, as in NAME:A,B", 2)
    content = image_in(image) if image else {}
    made = []
    for word, (name, names) in zip(words, told):
        if name not in KNOWN and not name.endswith(".py"):
            raise Refusal(f"there is no device {name}; there are {', '.join(KNOWN)}, and files FILE.py", 2)
        device = KNOWN[name]() if name in KNOWN else made_of(name)
        own = channels_for(word, names, outside, taken)
        taken |= {it.name for it in own}
        device.channels, device.image = {it.name: it for it in own}, dict(content)
        made.append(Player(name, device, own))
    rest = [it for it in outside.values() if it.name not in taken]
    made.append(Player("sink", Sink(), rest))
    for player in made:
        player.call("start")
    return made


def beside(word: str, folder: str) -> str:
    """A word for a device whose file, if it is one, lies in a folder."""
    name, mark, rest = word.partition(":")
    return os.path.join(folder, name) + mark + rest if name.endswith(".py") else word
