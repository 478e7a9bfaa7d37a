#!/usr/bin/env python3
"""The picture of the crates in docs/ARCHITECTURE.md, drawn from crates.txt.

    .ci/picture.py            says whether the picture is the one that crates.txt has
    .ci/picture.py --write    draws it anew

An arrow leads from a crate to each crate of this repository that it stands on, but for those that it stands on through
another one too.
"""
import sys

FILE = "docs/ARCHITECTURE.md"
BEGIN = "```mermaid\n"
END = "```\n"

crates = {}
for line in open("crates.txt"):
    line = line.split("#")[0]
    if ":" in line:
        name, below = line.split(":", 1)
        crates[name.split()[0]] = below.split()
below = {name: [c for c in those if c in crates] for name, those in crates.items()}


def reached(name):
    """All crates that a crate stands on, through others too."""
    found = set()
    left = list(below[name])
    while left:
        crate = left.pop()
        if crate not in found:
            found.add(crate)
            left += below[crate]
    return found


def height(name):
    return 1 + max((height(c) for c in below[name]), default=0)


lines = [BEGIN, "graph TD\n"]
for name in sorted(crates, key=lambda n: (-height(n), n)):
    through = set().union(*(reached(c) for c in below[name]))
    direct = sorted(c for c in below[name] if c not in through)
    if direct:
        lines.append("    %s --> %s\n" % (name, " & ".join(direct)))
    else:
        lines.append("    %s\n" % name)
drawn = "".join(lines) + END

text = open(FILE).read()
begin = text.index(BEGIN)
end = text.index(END, begin + len(BEGIN)) + len(END)
if "--write" in sys.argv[1:]:
    open(FILE, "w").write(text[:begin] + drawn + text[end:])
elif text[begin:end] != drawn:
    sys.exit("docs/ARCHITECTURE.md: the picture isn't that of crates.txt: .ci/picture.py --write draws it anew")
