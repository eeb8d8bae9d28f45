#!/usr/bin/env python3
"""Draws docs/power_cut.svg from docs/power_cut.table: of each write and sync of a flush what a cut within it may leave of each byte of the page, and the
version that is opened after it.

    tools/draw_power_cut.py [PROGRAM]

With a program the table's versions are first compared with what it does: a rehearsal is cut within each call, by each kind of pick."""
import pathlib
import subprocess
import sys
import tempfile

TOP = pathlib.Path(__file__).resolve().parent.parent
FOLDER = TOP / "docs"
PICKS = ("old", "new", "0", "165")
# The commands before the flush that is cut, over a journal of one page: its place is new, or was used before.
BEFORE = {"new": "set 1 11\n", "used": "set 1 11\nflush\ncheckpoint\nset 1 12\n"}
TITLES = {"new": "A place that was never written: its gate reads closed", "used": "A place that is used again: its gate reads open"}
NAMES = {"old": "old", "new": "new", "any": "any byte", "closed": "closed", "open": "open"}
LEFT, COLUMN, TOP_OF_PART, PART, ROW = 150, 116, 92, 190, 40
BODY, GATE = 0, 1

STYLE = """.ground { fill: #ffffff; stroke: none } text { fill: #1b1f24 } .small { font-size: 11.5px } .head { font-size: 15px; font-weight: bold } .bold { font-weight: bold }
    rect { stroke: #57606a; stroke-width: 1 }
    .old, .closed { fill: #d0d7de } .new, .open { fill: #aceebb } .any { fill: #ffd8b5 }
    @media (prefers-color-scheme: dark) {
      .ground { fill: #0d1117 } text { fill: #e6edf3 } rect { stroke: #9198a1 }
      .old, .closed { fill: #3d444d } .new, .open { fill: #1a4d2b } .any { fill: #6b3a12 }
    }"""


def parts():
    """Of each kind of place its columns: the call, what it is, the body's bytes, the gate's byte, and the version after each pick."""
    found = {}
    for line in (FOLDER / "power_cut.table").read_text().splitlines():
        if line and not line.startswith("#"):
            place, call, what, body, gate, *versions = line.split("\t")
            found.setdefault(place, []).append((int(call), what, body, gate, versions))
    return found


def opened(program, place, call, pick):
    """By how much the version that is opened is above the one before the flush."""
    with tempfile.NamedTemporaryFile("w", suffix=".script") as script:
        script.write(f"{BEFORE[place]}stop {call} {pick} flush\n")
        script.flush()
        words = [program, "rehearse", TOP / "examples/six.gr", script.name, "--journal", "1"]
        last = subprocess.run(words, check=True, capture_output=True, text=True).stdout.split("\n")[-2]
    return int(last.split()[1]) - (1 if place == "used" else 0)


def compare(program, found):
    """Tells each version of the table that the program does not come to; returns how many there are."""
    wrong = 0
    for place, columns in found.items():
        for call, _, _, _, versions in columns:
            for pick, version in zip(PICKS, versions):
                seen = opened(program, place, call, pick)
                if seen != int(version):
                    print(f"{place} place, call {call}, pick {pick}: {seen}, and the table has {version}")
                    wrong += 1
    return wrong


def told(versions):
    """Which versions the picks lead to."""
    ways = sorted(set(versions))
    return {("0",): "before it", ("1",): "after it"}.get(tuple(ways), "before or after it")


def column(x, y, call, what, body, gate, versions, is_last):
    """One call: its name, the page's bytes, and what is opened."""
    yield f'  <text class="bold" x="{x}" y="{y}">{"" if is_last else call} {what}</text>'
    for row, (kind, name) in enumerate(((body, "bytes 0 to 4,094"), (gate, "byte 4,095"))):
        yield f'  <rect class="{kind}" x="{x}" y="{y + 12 + ROW * row}" width="{COLUMN - 10}" height="{ROW - 10}"><title>{name}</title></rect>'
        yield f'  <text class="small" x="{x + 8}" y="{y + 31 + ROW * row}">{NAMES[kind]}</text>'
    yield f'  <text class="small" x="{x}" y="{y + 110}">{told(versions)}</text>'


def drawing(found):
    """The lines of the picture."""
    width = LEFT + COLUMN * max(len(columns) for columns in found.values()) + 10
    yield f'<svg xmlns="http://www.w3.org/2000/svg" viewBox="0 0 {width} {TOP_OF_PART + PART * len(found) - 30}" font-family="sans-serif" font-size="13" role="img" aria-labelledby="title">'
    yield '  <title id="title">A power cut within a flush: what each byte of the page may be, and what is opened after it</title>'
    yield f"  <style>\n    {STYLE}\n  </style>"
    yield '  <rect class="ground" width="100%" height="100%"/>'
    yield '  <text class="head" x="20" y="28">A power cut within a flush</text>'
    yield '  <text class="small" x="20" y="48">Each byte of the page may independently be what is shown here, after a cut within the call. "Any byte": old, new, or something else. A gate is open only at 165.</text>'
    for part, (place, columns) in enumerate(found.items()):
        y = TOP_OF_PART + PART * part
        yield f'  <text class="bold" x="20" y="{y}">{TITLES[place]}</text>'
        for name, down in (("cut within", 32), ("its body", 63), ("its gate", 103), ("opened: the version", 142)):
            yield f'  <text class="small" x="20" y="{y + down}">{name}</text>'
        for at, (call, what, body, gate, versions) in enumerate(columns):
            yield from column(LEFT + COLUMN * at, y + 32, call, what, body, gate, versions, at == len(columns) - 1)
    yield "</svg>"


found = parts()
if len(sys.argv) > 1:
    wrong = compare(sys.argv[1], found)
    print(f"{sum(len(columns) for columns in found.values()) * len(PICKS)} cuts, {wrong} wrong")
    if wrong:
        sys.exit(1)
(FOLDER / "power_cut.svg").write_text("\n".join(drawing(found)) + "\n")
