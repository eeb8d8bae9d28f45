#!/usr/bin/env python3
"""Holds what docs/HEADLINE.md quotes against the files that it names: each block, word for word, at its line.

    tools/compare_quotations.py [--lines]

A quotation is a line "`crates/PATH`, line N:" and, behind an empty line, a block four blanks wide. With --lines the page's numbers of lines are
set to where the blocks stand now; a block that stands nowhere is wrong all the same. A table of the page names definitions as "`NAME`, `crates/PATH`, line N":
there the definition begins.
"""
import pathlib
import re
import sys

TOP = pathlib.Path(__file__).resolve().parent.parent
PAGE = TOP / "docs/HEADLINE.md"
NAMED = re.compile(r"`(crates/[^`]+)`, line (\d+):$")
DEFINED = re.compile(r"`(\w+)`, `(crates/[^`]+)`, line (\d+)")


def block_behind(lines, at):
    """The lines of the block that begins at this line of the page, without their four blanks."""
    block = []
    while at < len(lines) and lines[at].startswith("    "):
        block.append(lines[at][4:])
        at += 1
    return block


def places_of(block, source):
    """The numbers of the lines at which the block stands in the source."""
    return [at + 1 for at in range(len(source) - len(block) + 1) if source[at : at + len(block)] == block]


def compare(lines, sets_lines):
    """Compares each quotation of the page; returns how many there are and how many are wrong."""
    quoted = wrong = 0
    for at, line in enumerate(lines):
        named = NAMED.match(line)
        if not named:
            continue
        quoted += 1
        path, number = named[1], int(named[2])
        block = block_behind(lines, at + 2)
        source = (TOP / path).read_text().splitlines() if (TOP / path).is_file() else []
        places = places_of(block, source) if block else []
        if not places:
            print(f"{path} does not have what stands in line {at + 3} of the page")
            wrong += 1
        elif number not in places and sets_lines:
            nearest = min(places, key=lambda place: abs(place - number))
            lines[at] = f"`{path}`, line {nearest}:"
        elif number not in places:
            print(f"{path} has in line {places[0]}, and not in line {number}, what stands in line {at + 3} of the page")
            wrong += 1
    return quoted, wrong


def place_of(name, path):
    """The number of the line at which the definition of this name begins, or 0."""
    begins = re.compile(rf"(?:abbrev |unfoldable )?pub (?:record |data |trait |fn )?{name}\b")
    source = (TOP / path).read_text().splitlines() if (TOP / path).is_file() else []
    return next((at for at, line in enumerate(source, 1) if begins.match(line)), 0)


def compare_names(lines, sets_lines):
    """Compares each definition that a table names; returns how many there are and how many are wrong."""
    named = wrong = 0
    for at, line in enumerate(lines):
        for name, path, number in DEFINED.findall(line):
            named += 1
            place = place_of(name, path)
            if place and sets_lines:
                lines[at] = lines[at].replace(f"`{name}`, `{path}`, line {number}", f"`{name}`, `{path}`, line {place}")
            elif place != int(number):
                print(f"{path} defines {name} in line {place}, and not in line {number}" if place else f"{path} does not define {name}")
                wrong += 1
    return named, wrong


sets_lines = "--lines" in sys.argv[1:]
lines = PAGE.read_text().splitlines()
quoted, wrong = compare(lines, sets_lines)
named, misnamed = compare_names(lines, sets_lines)
wrong += misnamed
if sets_lines:
    PAGE.write_text("\n".join(lines) + "\n")
print(f"{quoted} quotations and {named} named definitions, {wrong} wrong")
sys.exit(wrong > 0 or quoted == 0)
