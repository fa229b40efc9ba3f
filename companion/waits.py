"""What is under way where a run stops, and what waits for what."""

from __future__ import annotations

from collections.abc import Iterator
from dataclasses import dataclass, field

from companion.fit import name_of
from companion.parts import Part, width_of
from companion.rules import Net
from companion.scene import Scene


@dataclass
class Wait:
    """A part under way with none in it: why it waits, in lines; the parts that it waits for; whether it waits for the
    environment; whether it is blocked for good by itself, as a selection is where not exactly one guard is true; and
    whether all that it waits for is over."""

    part: Part
    lines: list[str] = field(default_factory=list)
    on: list[Part] = field(default_factory=list)
    outside: bool = False
    blocked: bool = False
    over: bool = False


def waits_of(scene: Scene) -> list[Wait]:
    """What each innermost part under way waits for."""
    return [wait_of(scene, part) for part in scene.leaves(scene.tree.root)]


def wait_of(scene: Scene, part: Part) -> Wait:
    """What this part waits for."""
    wait = Wait(part)
    if part.kind in ("send", "receive"):
        wait_on_channel(scene, wait)
    elif part.kind in ("select", "again"):
        wait_on_guards(scene, wait)
    else:
        wait.lines.append("it is between two of its steps")
    return wait


def wait_on_channel(scene: Scene, wait: Wait) -> None:
    """A send waits for a receive, a receive for a send; the environment does one of them on channels that lead
    outside."""
    part, is_send = wait.part, wait.part.kind == "send"
    name = name_of(part, scene.tree, scene.net)
    channel = scene.net.channel(name)
    if channel is None:
        wait.lines.append("its channel isn't told by the rules")
        return
    passed = len(scene.report.passed.get(name, []))
    count = f"{passed} value{' has' if passed == 1 else 's have'} passed"
    if is_send:
        wait.lines.append(f"it offers {scene.value(name, channel.width)} on {name}")
    if scene.values[f"{name}.a"] == "1" and not scene.is_still():
        wait.lines.append(f"the value has passed on {name}, and its handshake isn't over: {count}")
        return
    if channel.kind != "chan":
        wait.outside = True
        does = "takes no more" if is_send else "sends no more"
        if not scene.is_still():
            does = "is to take the next value" if is_send else "is to send the next value"
        wait.lines.append(f"the environment {does} on {name}: {count}")
        return
    doing, other = ("receive", "received") if is_send else ("send", "sent")
    sites = scene.sites.get((doing, name), [])
    if not sites:
        wait.blocked = True
        wait.lines.append(f"it waits for ever: nothing is {other} on {name} in this program")
    own = scene.path(part)
    for path in (path for site in sites for path in scene.paths(site)):
        site = path[-1]
        at = next(at for at, it in enumerate(path) if at >= len(own) or it is not own[at])
        where = scene.called_on(path)
        if path[at - 1].kind != "parallel":
            wait.on.append(part)
            wait.lines.append(f"{name} is {other} at {where}, which isn't beside it: it waits for itself")
            continue
        held = scene.held(path[at:])
        wait.on += [it for it in held if it not in wait.on]
        behind = f"which waits for {' and '.join(scene.called(it) for it in held if it is not site)}"
        ended = "which is over"
        told = "which is under way too" if site in held else behind if held else ended
        wait.lines.append(f"{name} is {other} at {where}, {told}")
    wait.over = bool(sites) and not wait.on


def guard_rails(net: Net, part: Part) -> list[tuple[str, str]]:
    """The rails of each guard of a selection, as the rule of its first start tells them: `l & ~h1.t & ~h1.f & ..`."""
    own = 3 if part.kind == "select" else 6
    names = list(net.first)
    start = names[part.first + own + len(part.children)]
    terms = net.terms(start, "+")
    rails = [node for node, high in terms[0] if not high and node != "reset"] if terms else []
    return list(zip(rails[0::2], rails[1::2]))


def wait_on_guards(scene: Scene, wait: Wait) -> None:
    """A selection waits where not exactly one guard is true, a guarded repetition where several are."""
    part = wait.part
    guards = guard_rails(scene.net, part)
    true = [at for at, (high, _) in enumerate(guards) if scene.values[high] == "1"]
    known = all(scene.values[high] != scene.values[low] for high, low in guards)
    if not guards or not known or len(true) == 1 or (part.kind == "again" and not true):
        wait.lines.append("it is between two of its steps")
        return
    wait.blocked = scene.is_still()
    for_ever = ", so it waits for ever" if wait.blocked else " where the run stops"
    statement = scene.fit.statements.get(part)
    text = [f" ({scene.fit.cut(it.start, it.end, 40)})" for it in statement.guards] if statement else [""] * len(guards)
    if not true:
        wait.lines.append(f"none of its {len(guards)} guards is true{for_ever}")
    else:
        several = " and ".join(f"{at + 1}{text[at]}" for at in true)
        wait.lines.append(f"the guards {several} are true at once{for_ever}")
    if statement:
        names = dict.fromkeys(use.name for guard in statement.guards for use in guard.uses)
        widths = {block.name: width_of(block) for block in scene.tree.variables()}
        read = [f"{name} = {scene.value(name, widths[name])}" for name in names if name in widths]
        if read:
            wait.lines.append(f"they read {', '.join(read)}")


def cycles(waits: list[Wait]) -> Iterator[list[Part]]:
    """The cycles of parts of which each waits for the next one, the last one for the first; each once."""
    on = {wait.part: wait.on for wait in waits}
    told: set[frozenset[Part]] = set()
    for start in on:
        paths, seen = [[start]], {start}
        while paths:
            path = paths.pop(0)
            after = on.get(path[-1], [])
            if start in after:
                if frozenset(path) not in told:
                    told.add(frozenset(path))
                    yield path
                break
            paths += [[*path, it] for it in after if it not in seen]
            seen.update(after)
