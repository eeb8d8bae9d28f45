#!/usr/bin/env python3
"""Draws docs/ways.svg from docs/ways.table: a line down for each who takes part, an arrow for each thing that is handed on.

    tools/draw_ways.py
"""
import html
import pathlib

FOLDER = pathlib.Path(__file__).resolve().parent.parent / "docs"
LANES = {
    "client": ("client", "writes lines"),
    "session": ("session", "judges, answers"),
    "office": ("office", "under the lock"),
    "flusher": ("flusher", "a thread"),
    "disk": ("disk", "the file"),
    "builder": ("builder", "a thread"),
    "copy": ("readers' copy", "no lock"),
}
WAYS = {"set": "a `set`", "view": "the view that has it", "query": "a query"}
LEFT, STEP, TOP, LINE, WIDTH = 80, 150, 96, 34, 1080

STYLE = """.ground { fill: #ffffff }
    text { fill: #1b1f24 } .small { font-size: 11.5px } .head { font-weight: bold } .lane { stroke: #d0d7de; stroke-width: 1.5 }
    .set { stroke: #0969da; fill: #0969da } .view { stroke: #1a7f37; fill: #1a7f37 } .query { stroke: #bc4c00; fill: #bc4c00 }
    path { stroke-width: 2 } .line { fill: none } .name, .tip { stroke: none }
    @media (prefers-color-scheme: dark) {
      .ground { fill: #0d1117 } text { fill: #e6edf3 } .lane { stroke: #3d444d }
      .set { stroke: #4493f8; fill: #4493f8 } .view { stroke: #3fb950; fill: #3fb950 } .query { stroke: #f0883e; fill: #f0883e }
    }"""


def steps():
    """The steps of the table, in order."""
    for line in (FOLDER / "ways.table").read_text().splitlines():
        if line and not line.startswith("#"):
            yield line.split("\t")


def place(lane):
    """Where a lane stands."""
    return LEFT + STEP * list(LANES).index(lane)


def arrow(way, start, end, y):
    """An arrow from lane to lane, or one that comes back to its own."""
    a, b = place(start), place(end)
    if a == b:
        yield f'  <path class="{way} line" d="M {a} {y - 8} h 26 v 14 h -18"/>'
        yield f'  <path class="{way}" d="M {a + 1} {y + 6} l 8 -4 v 8 z"/>'
        return
    side = 1 if b > a else -1
    yield f'  <path class="{way} line" d="M {a} {y} H {b - 9 * side}"/>'
    yield f'  <path class="{way} tip" d="M {b - side} {y} l {-9 * side} -5 v 10 z"/>'


def label(way, start, end, y, what):
    """What is handed on, above the arrow; beside it where it comes back to its own lane."""
    a, b = place(start), place(end)
    text = html.escape(what)
    if a == b:
        return f'  <text class="small" x="{a + 32}" y="{y + 3}">{text}</text>'
    return f'  <text class="small" x="{min(a, b) + 8}" y="{y - 7}">{text}</text>'


def drawing(rows):
    """The lines of the picture."""
    height = TOP + LINE * len(rows) + 22 * len(WAYS)
    yield f'<svg xmlns="http://www.w3.org/2000/svg" viewBox="0 0 {WIDTH} {height}" font-family="sans-serif" font-size="13" role="img" aria-labelledby="title">'
    yield '  <title id="title">The way of a set, of the view that has it, and of a query</title>'
    yield f"  <style>\n    {STYLE}\n  </style>"
    yield '  <rect class="ground" width="100%" height="100%"/>'
    for lane, (name, says) in LANES.items():
        x = place(lane)
        yield f'  <text class="head" x="{x}" y="30" text-anchor="middle">{html.escape(name)}</text>'
        yield f'  <text class="small" x="{x}" y="48" text-anchor="middle">{html.escape(says)}</text>'
        yield f'  <path class="lane" d="M {x} 58 V {height - 16}"/>'
    y, before = TOP, None
    for way, start, end, what in rows:
        if way != before:
            yield f'  <text class="{way} name head" x="8" y="{y - 6}">{html.escape(WAYS[way])}</text>'
            y, before = y + 22, way
        yield from arrow(way, start, end, y)
        yield label(way, start, end, y, what)
        y += LINE
    yield "</svg>"


(FOLDER / "ways.svg").write_text("\n".join(drawing(list(steps()))) + "\n")
