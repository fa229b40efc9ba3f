"""Whether the two guards of a node are each other's complement: where neither holds, the node keeps its value, which
takes a keeper."""

from __future__ import annotations

from companion.rules import Term

Fixed = dict[str, bool]  # a term as the values of its nodes


def fixed(term: Term) -> Fixed | None:
    """A term's values, or none where it asks for both values of a node."""
    found: Fixed = {}
    for node, high in term:
        if found.setdefault(node, high) != high:
            return None
    return found


def covers_all(terms: list[Fixed]) -> bool:
    """Whether for all values of the nodes some term holds: by one node after the other, the one in most terms first."""
    if any(not term for term in terms):
        return True
    counts: dict[str, list[int]] = {}
    for term in terms:
        for node, high in term.items():
            counts.setdefault(node, [0, 0])[high] += 1
    both = [node for node, seen in counts.items() if all(seen)]
    if not both:  # then each node has a value at which no term holds that names it
        return False
    node = max(both, key=lambda it: sum(counts[it]))
    return all(covers_all(left_of(terms, node, high)) for high in (False, True))


def left_of(terms: list[Fixed], node: str, high: bool) -> list[Fixed]:
    """The terms that may hold where a node has this value, without it."""
    return [
        {name: value for name, value in term.items() if name != node} for term in terms if term.get(node, high) == high
    ]


def needs_keeper(up: list[Term], down: list[Term]) -> bool:
    """Whether there are values of the nodes at which neither of the two rules is enabled."""
    terms = [term for term in map(fixed, (*up, *down)) if term is not None]
    return not covers_all(terms)
