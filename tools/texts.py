"""Readers of the three texts that boundt writes: listing, graph and report. They are no part of the proved program."""
from dataclasses import dataclass, field


@dataclass
class Subprogram:
    """What the text of a graph shows of one subprogram, by program points as they are written there."""

    entry: str
    name: str
    returns: bool
    nodes: list = field(default_factory=list)
    edges: list = field(default_factory=list)
    calls: list = field(default_factory=list)
    gaps: list = field(default_factory=list)


@dataclass
class Context:
    """What a report tells of one context: its bound or None, its loops by head, and its reasons."""

    entry: str
    name: str
    arguments: str
    bound: int | None
    loops: list = field(default_factory=list)
    reasons: list = field(default_factory=list)


def lines_between(text, first, last="end"):
    """The lines of a text behind its first line, up to its last. Another first or last line is refused."""
    lines = text.splitlines()
    if not lines or lines[0] != first or lines[-1] != last:
        raise SystemExit(f"no text that begins with '{first}' and ends with '{last}'")
    return lines[1:-1]


def read_graph(text):
    """The subprograms of the text of a graph, in its order."""
    subprograms = []
    for line in lines_between(text, "boundt graph 1"):
        kind, *rest = line.split(" ")
        if kind == "sub":
            subprograms.append(Subprogram(rest[0], rest[1], rest[2] == "returns"))
        elif kind == "node":
            subprograms[-1].nodes.append(rest[0])
        else:
            {"edge": subprograms[-1].edges, "call": subprograms[-1].calls, "gap": subprograms[-1].gaps}[kind].append(tuple(rest))
    return subprograms


def read_report(text):
    """The lines of the roots, and the contexts of a report, in its order."""
    roots, contexts = [], []
    for line in lines_between(text, "boundt report 1"):
        kind, rest = line.split(" ", 1)
        if kind == "root":
            roots.append(rest)
        elif kind == "context":
            words = rest.split(" ")
            bounded = words[-2] == "bounded"
            arguments = " ".join(words[2:-2] if bounded else words[2:-1])
            contexts.append(Context(words[0], words[1], arguments, int(words[-1]) if bounded else None))
        elif kind == "loop":
            contexts[-1].loops.append(tuple(rest.split(" ", 1)))
        else:
            contexts[-1].reasons.append(rest)
    return roots, contexts


def read_listing(text):
    """The instructions of a listing, by their addresses as they are written."""
    return dict((line[:8], line[18:]) for line in text.splitlines())


def address_of(node):
    """The address of a program point."""
    return node[:8]
