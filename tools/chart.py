#!/usr/bin/env python3
"""Draws docs/speed.svg from docs/speed.table: a line for each peer on each network, ours to the peer's on a logarithmic scale.

    tools/chart.py
"""
import math
import pathlib

FOLDER = pathlib.Path(__file__).resolve().parent.parent / "docs"
LEFT, WIDTH, TOP, LINE = 290, 540, 70, 18
NAMES = 190
LEAST, MOST = 0.1, 10.0
PEERS = ("Boost", "4-ary heap", "smart", "delta")

STYLE = """.ground { fill: #ffffff }
    text { fill: #1b1f24 } .small { font-size: 11.5px } .grid { stroke: #d0d7de } .even { stroke: #57606a; stroke-width: 1.5 }
    .peer0 { fill: #0969da } .peer1 { fill: #1a7f37 } .peer2 { fill: #bc4c00 } .peer3 { fill: #8250df }
    @media (prefers-color-scheme: dark) {
      .ground { fill: #0d1117 } text { fill: #e6edf3 } .grid { stroke: #3d444d } .even { stroke: #9198a1 }
      .peer0 { fill: #4493f8 } .peer1 { fill: #3fb950 } .peer2 { fill: #f0883e } .peer3 { fill: #ab7df8 }
    }"""


def place(ratio):
    """Where a ratio stands."""
    share = math.log(ratio / LEAST) / math.log(MOST / LEAST)
    return round(LEFT + WIDTH * min(max(share, 0.0), 1.0), 1)


def measured():
    """Of each network the peers with the least and the greatest ratio, in the order of the table."""
    networks = {}
    for line in (FOLDER / "speed.table").read_text().splitlines():
        if line and not line.startswith("#"):
            network, peer, low, high = line.split("\t")
            networks.setdefault(network, []).append((peer, float(low), float(high)))
    return networks


def drawing(networks):
    """The lines of the picture."""
    height = TOP + sum(LINE * len(peers) + 12 for peers in networks.values()) + 34
    title = "The processor time of one row, ours to each peer's"
    yield f'<svg xmlns="http://www.w3.org/2000/svg" viewBox="0 0 860 {height}" font-family="sans-serif" font-size="13" role="img" aria-labelledby="title">'
    yield f"  <title id=\"title\">{title}</title>\n  <style>\n    {STYLE}\n  </style>\n  <rect class=\"ground\" width=\"100%\" height=\"100%\"/>"
    yield f'  <text x="20" y="26" font-size="15" font-weight="bold">{title}</text>'
    yield '  <text class="small" x="20" y="46">left of 1 we take less. A dot where runs agreed, else the span from the least to the greatest</text>'
    for ratio in (0.1, 0.2, 0.5, 1, 2, 5, 10):
        kind = "even" if ratio == 1 else "grid"
        yield f'  <line class="{kind}" x1="{place(ratio)}" y1="{TOP - 8}" x2="{place(ratio)}" y2="{height - 30}"/>'
        yield f'  <text class="small" x="{place(ratio)}" y="{height - 14}" text-anchor="middle">{ratio:g}</text>'
    y = TOP
    for network, peers in networks.items():
        yield f'  <text x="20" y="{y + 12}">{network}</text>'
        for peer, low, high in peers:
            kind, left, right = PEERS.index(peer), place(low) - 4, place(high) + 4
            yield f'  <rect class="peer{kind}" x="{left:.1f}" y="{y + 4}" width="{right - left:.1f}" height="8" rx="4"/>'
            yield f'  <text class="small" x="{NAMES}" y="{y + 12}">{peer}</text>'
            y += LINE
        y += 12
    yield "</svg>"


(FOLDER / "speed.svg").write_text("\n".join(drawing(measured())) + "\n")
