#!/usr/bin/env python3
"""Checks README.md and docs/*.md: that each relative link leads to a file and a heading, that each path of the repository that they name is there, that no line
outside of tables and code is longer than 100 characters, that no page has a heading twice, and that each number of edits that a page has is that of the files
crates/*/must-fail/*.edit. Pages, scripts, units and the client module may name a heading as `docs/PAGE.md, "Heading"`: that page has to have it.

    tools/check_pages.py
"""
import pathlib
import re
import sys

TOP = pathlib.Path(__file__).resolve().parent.parent
PAGES = [TOP / "README.md", *sorted((TOP / "docs").glob("*.md"))]
NAMING = [*PAGES, *(file for folder in ("client", "examples", "tools", "web") for file in sorted((TOP / folder).rglob("*")) if file.suffix in (".py", ".sh", ".service", ".socket", ".cfg", ".conf"))]
LINK = re.compile(r"\]\(([^)\s]+)\)")
# A path of the repository, as pages name it: `docs/X.md` with or without marks, and files of crates between marks.
NAMED = re.compile(r"(?<![\w/`.-])(?:docs|tools|examples|client)/[\w.-]*\w|`((?:crates|docs|tools|examples|client)/[\w./-]+)`")
# A heading of a page, as other files name it: docs/X.md, "Heading", or [X.md](X.md), "Heading".
HEADING = re.compile(r'\b(\w+\.md)(?:\]\([^)]*\))?,\s+"([^"]+)"')
# Not there before the program is built, or made by a tour.
MADE = ("crates/roadmark/out", "crates/NAME")
# A number of edits, as pages have it.
EDITS = re.compile(r"(?<![\w.,])(\d+) edits\b")
LONGEST_LINE = 100


def headings(page):
    """The headings of a page, in their order."""
    return [line.lstrip("#").strip() for line, is_prose in lines_of(page.read_text()) if is_prose and re.match(r"#+ ", line)]


def anchor_of(heading):
    """The anchor by which links name a heading."""
    return re.sub(r"[^\w\- ]", "", heading.lower()).replace(" ", "-")


def lines_of(text):
    """Each line of a page, and whether it is prose: outside of tables and code."""
    is_fenced, was_blank, was_code = False, True, False
    for line in text.splitlines():
        is_mark = line.lstrip().startswith("```")
        is_code = line.startswith("    ") and (was_blank or was_code)
        yield line, not (is_fenced or is_mark or is_code or line.startswith("|"))
        is_fenced ^= is_mark
        was_blank, was_code = not line.strip(), is_code or (was_code and not line.strip())


def wrong_links(page, text):
    """Each relative link of the page that leads nowhere."""
    for link in LINK.findall(text):
        if re.match(r"[a-z]+:", link):
            continue
        path, _, anchor = link.partition("#")
        target = (page.parent / path).resolve() if path else page
        if not target.exists():
            yield f"there is no {link}"
        elif anchor and anchor not in map(anchor_of, headings(target)):
            yield f"{link}: there is no such heading"


def wrong_names(text):
    """Each path that the page names and that is not there."""
    for match in NAMED.finditer(text):
        name = (match[1] or match[0]).rstrip(".")
        if not name.startswith(MADE) and not (TOP / name).exists():
            yield f"there is no {name}"


def wrong_headings(text):
    """Each heading of another page that is named and that is not there."""
    for name, heading in HEADING.findall(text):
        page = TOP / "docs" / name
        if page.exists() and " ".join(heading.split()) not in headings(page):
            yield f'docs/{name} has no heading "{heading}"'


def wrong_lines(page, text):
    """Each line of prose that is too long, and each heading that comes again."""
    for number, (line, is_prose) in enumerate(lines_of(text), 1):
        if is_prose and len(line) > LONGEST_LINE:
            yield f"line {number} has {len(line)} characters"
    anchors = [anchor_of(heading) for heading in headings(page)]
    for anchor in {anchor for anchor in anchors if anchors.count(anchor) > 1}:
        yield f"two headings are #{anchor}"


def wrong_counts(text, edits):
    """Each number of edits that the page has and that is another."""
    for counted in EDITS.findall(text):
        if int(counted) != edits:
            yield f"{counted} edits, and there are {edits}"


edits = len(list(TOP.glob("crates/*/must-fail/*.edit")))
wrong = links = 0
for file in NAMING:
    text = file.read_text()
    found = [*wrong_headings(text)]
    if file in PAGES:
        links += len(LINK.findall(text))
        found += [*wrong_links(file, text), *wrong_names(text), *wrong_lines(file, text), *wrong_counts(text, edits)]
    for what in found:
        print(f"{file.relative_to(TOP)}: {what}")
    wrong += len(found)
print(f"{len(PAGES)} pages, {links} links, {edits} edits, {wrong} wrong")
sys.exit(wrong > 0)
