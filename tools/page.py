#!/usr/bin/env python3
"""One page of HTML that shows what boundt writes of an executable: the report, the picture, the listing and the graph, side by
side. Each address is a link to its line of the listing. The page needs no other file and no network.

    tools/page.py LISTING GRAPH REPORT > NAME.html

It draws the picture where `dot` of Graphviz is there, else it leaves it out. The script is no part of the proved program.
"""
import argparse
import html
import re
import subprocess

from picture import picture
from texts import read_graph, read_listing, read_report

STYLE = """
body { font: 13px/1.4 sans-serif; margin: 1em; }
pre { font: 12px/1.35 monospace; margin: 0; white-space: pre; }
.columns { display: flex; gap: 1.5em; align-items: flex-start; }
.columns section { max-height: 85vh; overflow: auto; border: 1px solid #bbb; padding: .6em; flex: 1; }
h2 { font-size: 15px; margin: .8em 0 .3em; }
a { color: #0645ad; text-decoration: none; }
a:hover { text-decoration: underline; }
:target { background: #ffef9e; }
.unbounded, .gap { color: #b00; font-weight: bold; }
svg { max-width: 100%; height: auto; }
"""


def linked(line, listing):
    """A line with a link from each address that the listing has."""
    parts = re.split(r"\b([0-9a-f]{8})\b", line)
    return "".join(f'<a href="#at{part}">{part}</a>' if n % 2 and part in listing else html.escape(part) for n, part in enumerate(parts))


def text_of(lines, listing):
    """Lines of a text, with links; those that say that something isn't bounded or known stand out."""
    out = []
    for line in lines:
        kind = "unbounded" if line.startswith("reason ") or line.endswith(" unbounded") else "gap" if line.startswith("gap ") else ""
        out.append(f'<span class="{kind}">{linked(line, listing)}</span>' if kind else linked(line, listing))
    return "<pre>" + "\n".join(out) + "</pre>"


def listing_of(text, listing):
    """The listing; each line can be linked to, and what it leads to is a link."""
    lines = (f'<span id="at{line[:8]}">{html.escape(line[:18])}{linked(line[18:], listing)}</span>' for line in text.splitlines())
    return "<pre>" + "\n".join(lines) + "</pre>"


def drawn(graph, report, listing):
    """The picture as SVG, if `dot` is there."""
    dot = picture(read_graph(graph), read_report(report)[1], listing)
    try:
        made = subprocess.run(["dot", "-Tsvg"], input=dot, capture_output=True, text=True, check=True).stdout
    except FileNotFoundError:
        return ""
    return made[made.index("<svg") :]


def page(title, listing_text, graph, report):
    """The whole page."""
    listing = read_listing(listing_text)
    svg = drawn(graph, report, listing)
    columns = [("Report", text_of(report.splitlines(), listing)), ("Listing", listing_of(listing_text, listing)), ("Graph", text_of(graph.splitlines(), listing))]
    body = "".join(f"<section><h2>{name}</h2>{text}</section>" for name, text in columns)
    shown = f"<h2>Picture</h2>{svg}" if svg else ""
    return f'<!DOCTYPE html>\n<html lang="en"><head><meta charset="utf-8"><title>{html.escape(title)}</title><style>{STYLE}</style></head>\n' \
        f'<body><h1>{html.escape(title)}</h1><div class="columns">{body}</div>{shown}</body></html>\n'


def main():
    """Reads the files and prints the page."""
    words = argparse.ArgumentParser(description="One page of HTML with what boundt writes of an executable.")
    for name in ("listing", "graph", "report"):
        words.add_argument(name, type=argparse.FileType())
    words.add_argument("--title", default="boundt")
    given = words.parse_args()
    print(page(given.title, given.listing.read(), given.graph.read(), given.report.read()), end="")


if __name__ == "__main__":
    main()
