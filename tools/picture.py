#!/usr/bin/env python3
"""Draws what `boundt graph` writes: a text for Graphviz, with one cluster for each subprogram.

    tools/picture.py GRAPH [--report REPORT] [--listing LISTING] > NAME.dot
    dot -Tsvg NAME.dot > NAME.svg

Program points without a branch between them share a box. With a report the heads of loops are filled and say how often they
are passed at most in each context, and a cluster says the bounds of its contexts; with a listing a box shows instructions.
Gaps are red. The script is no part of the proved program: it draws what the texts say.
"""
import argparse
from collections import defaultdict

from texts import address_of, read_graph, read_listing, read_report


def quoted(text):
    """A text as a string of Graphviz; a line end in it ends a line on the left."""
    return '"' + text.replace("\\", "\\\\").replace('"', '\\"').replace("\n", "\\l") + '"'


def boxes_of(subprogram, heads):
    """Lists of program points that follow each other without a branch; a head of a loop begins a box, a call ends one."""
    after, before = defaultdict(list), defaultdict(list)
    for source, target in subprogram.edges:
        after[source].append(target)
        before[target].append(source)
    ends = {node for node, _ in subprogram.calls} | {node for node in subprogram.nodes if address_of(node) in {pc for _, pc in subprogram.gaps}}

    def goes_on(node):
        """The program point that shares the box of this one, if one does."""
        if node in ends or len(after[node]) != 1:
            return None
        target = after[node][0]
        return target if len(before[target]) == 1 and target not in heads and target != node else None

    inside = {goes_on(node) for node in subprogram.nodes} - {None}
    boxes = []
    for node in subprogram.nodes:
        if node not in inside:
            boxes.append([node])
            while (following := goes_on(boxes[-1][-1])) is not None:
                boxes[-1].append(following)
    placed = {node for box in boxes for node in box}
    boxes += [[node] for node in subprogram.nodes if node not in placed]
    return boxes, after


def line_of(node, listing):
    """A program point as a line of a box: its address, its instruction, and where it leads if not to the next word."""
    words = [address_of(node)]
    if address_of(node) in listing:
        words.append(listing[address_of(node)])
    if ">" in node:
        words.append("> " + node[node.index(">") + 1 : node.rindex("/")])
    return " ".join(words)


def passes_of(contexts):
    """For each head of a loop what its contexts say of it."""
    passes = defaultdict(list)
    for context in contexts:
        for head, text in context.loops:
            words = text.split(" ")
            said = f"at most {words[2]}" if words[0] == "at" else "unbounded"
            if said not in passes[head]:
                passes[head].append(said)
    return passes


def title_of(subprogram, contexts):
    """The name of a subprogram, with the bounds of its contexts."""
    lines = [f"{subprogram.name} {subprogram.entry}" + ("" if subprogram.returns else ", doesn't return")]
    for context in contexts:
        if context.entry == subprogram.entry:
            lines.append(f"{context.arguments}: " + ("unbounded" if context.bound is None else f"{context.bound} cycles"))
    return "\n".join(lines) + "\n"


def cluster(subprogram, contexts, listing):
    """The lines of one subprogram, and the edges of its calls, which stand outside of it."""
    passes = passes_of([context for context in contexts if context.entry == subprogram.entry])
    boxes, after = boxes_of(subprogram, passes)
    name = {box[0]: f"{subprogram.entry}:{box[0]}" for box in boxes}
    out = [f"  subgraph {quoted('cluster_' + subprogram.entry)} {{", f"    label={quoted(title_of(subprogram, contexts))};", "    labeljust=l;"]
    calls = []
    for box in boxes:
        said = passes.get(box[0], [])
        label = "".join(line + "\n" for line in [", ".join(said)] * bool(said) + [line_of(node, listing) for node in box])
        look = ", style=filled, fillcolor=lightgoldenrod" if said else ""
        out.append(f"    {quoted(name[box[0]])} [label={quoted(label)}{look}];")
        for target in after[box[-1]]:
            out.append(f"    {quoted(name[box[0]])} -> {quoted(name[target])};")
        for node, callee in subprogram.calls:
            if node == box[-1]:
                calls.append((name[box[0]], callee))
        for kind, pc in subprogram.gaps:
            if pc == address_of(box[-1]):
                gap = f"{subprogram.entry}:gap:{kind}:{box[-1]}"
                out.append(f"    {quoted(gap)} [label={quoted('gap ' + kind)}, shape=octagon, style=filled, fillcolor=red, fontcolor=white];")
                out.append(f"    {quoted(name[box[0]])} -> {quoted(gap)} [color=red];")
    return out + ["  }"], calls


def picture(graph, contexts, listing):
    """The whole text for Graphviz."""
    shown = {subprogram.entry: subprogram.nodes for subprogram in graph}
    out = ["digraph boundt {", "  node [shape=box, fontname=monospace, fontsize=10];", "  graph [fontname=monospace, fontsize=11];"]
    for subprogram in graph:
        lines, calls = cluster(subprogram, contexts, listing)
        out += lines
        for source, callee in calls:
            entry = next((node for node in shown.get(callee, []) if node == f"{callee}/0"), None)
            if entry is None:
                out.append(f"  {quoted('stub:' + callee)} [label={quoted('stub ' + callee)}, shape=component];")
            target = f"{callee}:{entry}" if entry else f"stub:{callee}"
            out.append(f"  {quoted(source)} -> {quoted(target)} [style=dashed];")
    return "\n".join(out + ["}"]) + "\n"


def main():
    """Reads the files and prints the picture."""
    words = argparse.ArgumentParser(description="Draws what boundt graph writes, for Graphviz.")
    words.add_argument("graph", type=argparse.FileType())
    words.add_argument("--report", type=argparse.FileType())
    words.add_argument("--listing", type=argparse.FileType())
    given = words.parse_args()
    contexts = read_report(given.report.read())[1] if given.report else []
    listing = read_listing(given.listing.read()) if given.listing else {}
    print(picture(read_graph(given.graph.read()), contexts, listing), end="")


if __name__ == "__main__":
    main()
