#!/usr/bin/env python3
"""Prints each public function of a product crate that neither `main` reaches nor what `KEPT` names; and each call that README.md or
docs/PROMISES.md names as what carries a promise, where these reach no function of its name.

    tools/compare_reached.py

It reads the sources alone. A call by a type's name reaches the functions of that type, and one by a receiver those of each type
that reached code names: so it may take a function for reached that is not, and never the other way round.
"""
import pathlib
import re
import sys

from compare_clauses import TOP, rows

# What is kept though `main` does not reach it, with what it calls: the crate, the owner if there is one, the name; and why.
IN_MEMORY = "for who has a text in memory, and no reader of it"
SLOW = "the slow answer, with which tests compare the fast one"
DISK = "a disk for tests, which fails when it is told to"
OF_STORE = "for who keeps a store without a keeper"
OF_DESK = "for who keeps a desk in a program of its own"
OF_ARCS = "for who walks the grouped arcs without a search"
OF_QUEUES = "for who searches with a queue of their own"
OF_NETWORK = "for who changes a network, or its outline, without a store"
OF_PREMISE = "a file that keeps the premise of what is said of files"
KEPT = {
    ("roadnet", "Network", "apply_group"): OF_NETWORK,
    ("roadnet", "Outline", "apply_group"): OF_NETWORK,
    ("dimacs", None, "parse_gr"): IN_MEMORY,
    ("dimacs", None, "parse_ss"): IN_MEMORY,
    ("dimacs", None, "parse_p2p"): IN_MEMORY,
    ("dimacs", None, "parse_commands"): IN_MEMORY,
    ("scripts", None, "parse_script"): IN_MEMORY,
    ("snapshot", "Snapshot", "light"): OF_ARCS,
    ("snapshot", "Snapshot", "heavy"): OF_ARCS,
    ("deltastep", None, "plain_row"): SLOW,
    ("buckets", "RingBuckets", "new"): OF_QUEUES,
    ("buckets", "RingBuckets", "restart"): OF_QUEUES,
    ("deltastep", None, "suits"): OF_QUEUES,
    ("rows", None, "answer_plain"): SLOW,
    ("disk", "FailOnce", "new"): DISK,
    ("disk", "FailOnce", "into_inner"): DISK,
    ("disk", "FuseDisk", "new"): DISK,
    ("disk", "FuseDisk", "into_inner"): DISK,
    ("store", "Store", "calm"): OF_STORE,
    ("store", "Store", "commit"): OF_STORE,
    ("desk", "Reader", "pin"): OF_DESK,
    ("office", "Closed", "confirm"): OF_DESK,
    ("filedisk", "MemFile", "new"): OF_PREMISE,
    ("filedisk", "MemFile", "stop"): OF_PREMISE,
}


def product_crates():
    """The crates on which the program stands."""
    needs = {}
    for line in (TOP / "crates.txt").read_text().splitlines():
        name, _, rest = line.partition(":")
        needs[name.split()[0]] = rest.split()
    found, left = set(), ["roadmark"]
    while left:
        crate = left.pop()
        if crate in needs and crate not in found:
            found.add(crate)
            left += needs[crate]
    return found


def closing(text, at):
    """Behind the brace that closes the one at this place."""
    depth = 0
    for place in range(at, len(text)):
        depth += {"{": 1, "}": -1}.get(text[place], 0)
        if depth == 0:
            return place + 1
    return len(text)


def code_of(text):
    """The text without comments, strings, contracts and ghost items, each line at its place."""
    blank = lambda found: re.sub(r"[^\n]", " ", found[0])
    text = re.sub(r'//[^\n]*|b?"(?:\\.|[^"\\])*"|b?\'(?:\\.|[^\\\'])\'', blank, text)
    text = re.sub(r"\bghost use [^;]*;", blank, text)
    parts, at = [], 0
    for found in re.finditer(r"\b(?:ensures|requires)\*?(?: \w+)? \{|\bghost \w+(?:: | = )\{", text):
        if found.start() < at:
            continue
        end = closing(text, found.end() - 1)
        parts += [text[at : found.start()], re.sub(r"[^\n]", " ", text[found.start() : end])]
        at = end
    return "".join(parts) + text[at:]


def without_generics(head):
    """A head without what stands between `<` and `>`."""
    head, before = head.replace("->", "  "), None
    while head != before:
        before, head = head, re.sub(r"<[^<>]*>", "", head)
    return head


class Function:
    """A function: its crate, file and line, its owner (a type or a trait), the trait of its `impl`, and its text."""

    def __init__(self, source, line, name, owner, trait, is_public, text, body):
        self.source, self.line, self.name, self.owner, self.trait = source, line, name, owner, trait
        self.is_public, self.text, self.is_law = is_public, text, re.fullmatch(r"\{\s*\}", body) is not None

    @property
    def key(self):
        return (self.source.crate, self.owner, self.name)


class Source:
    """A file: its functions, its types with their texts, and the names under which it imports others."""

    def __init__(self, path):
        self.path, self.crate = path, path.relative_to(TOP).parts[1]
        self.code = code_of(path.read_text())
        self.functions, self.types, self.traits = [], {}, set()
        self.names = dict(re.findall(r"\b(\w+) as (\w+)\b", " ".join(re.findall(r"\buse [^;]*;", self.code))))
        self.names = {new: old for old, new in self.names.items()}
        self.read(0, len(self.code), None, None)

    def read(self, at, end, owner, trait):
        item = re.compile(r"(#\[(?:cfg\(test\)|test)\][^{;]*?)?(\bpub(?:\([a-z]+\))? )?(?:\bconst (?=fn))?\b(fn|impl|trait|struct|enum|type|mod) ?(\w*)")
        while found := item.search(self.code, at, end):
            is_test, is_public, kind, name = found[1], found[2] == "pub ", found[3], found[4]
            stop = self.head_end(found.end(), end)
            at = closing(self.code, stop) if self.code[stop : stop + 1] == "{" else stop + 1
            if is_test:
                continue
            text = self.code[found.start() : at]
            if kind == "fn":
                line = self.code.count("\n", 0, found.start(3)) + 1
                self.functions.append(Function(self, line, name, owner, trait, is_public, text, self.code[stop:at]))
            elif kind in ("struct", "enum", "type"):
                self.types[name] = self.types.get(name, "") + text
            elif kind == "impl":
                head = without_generics(self.code[found.start(3) : stop]).partition(" where ")[0]
                of, _, whose = head[4:].partition(" for ")
                last = lambda path: (re.findall(r"\w+", path) or [""])[-1]
                self.read(stop + 1, at - 1, *((last(whose), last(of)) if whose else (last(of), None)))
            elif kind == "trait":
                self.traits.add(name)
                self.read(stop + 1, at - 1, name, name)
            elif self.code[stop : stop + 1] == "{":
                self.read(stop + 1, at - 1, None, None)

    def head_end(self, at, end):
        """Where the head of an item ends: at its `{` or `;`."""
        depth = 0
        for place in range(at, end):
            letter = self.code[place]
            depth += {"(": 1, "[": 1, ")": -1, "]": -1}.get(letter, 0)
            if depth == 0 and letter in "{;":
                return place
        return end


class Program:
    """What `main` reaches."""

    def __init__(self):
        self.sources = [Source(path) for crate in sorted(product_crates()) for path in sorted((TOP / "crates" / crate / "src").rglob("*.rt"))]
        self.by_name, self.types, self.traits = {}, {}, set()
        for source in self.sources:
            self.traits |= source.traits
            for function in source.functions:
                self.by_name.setdefault(function.name, []).append(function)
            for name, text in source.types.items():
                self.types.setdefault(name, []).append((source, text))
        self.reached, self.reached_types, self.by_receiver, self.left = set(), set(), set(), []
        self.follow([("roadmark", None, "main")])
        self.unreached = [function for function in self.public() if function not in self.reached]
        self.follow(KEPT)

    def public(self):
        """The public functions, but those without code: a law is its contract alone."""
        return [function for functions in self.by_name.values() for function in functions if function.is_public and not function.is_law]

    def follow(self, keys):
        for functions in list(self.by_name.values()):
            for function in functions:
                if function.key in keys:
                    self.reach(function)
        before = None
        while before != (before := (len(self.reached), len(self.reached_types), len(self.by_receiver))):
            while self.left:
                self.look_at(*self.left.pop())
            for functions in self.by_name.values():
                for function in functions:
                    if function not in self.reached and function.owner and self.is_called(function):
                        self.reach(function)

    def is_called(self, function):
        """Whether a call by a receiver may be one of this function."""
        is_there = function.owner in self.reached_types or function.owner not in self.types
        if function.trait and function.trait not in self.traits:
            return is_there
        return is_there and function.name in self.by_receiver

    def reach(self, function):
        if function not in self.reached:
            self.reached.add(function)
            self.left.append((function.source, function.owner, function.text))
            if function.owner:
                self.reach_type(function.owner)

    def reach_type(self, name):
        if name in self.types and name not in self.reached_types:
            self.reached_types.add(name)
            self.left += [(source, name, text) for source, text in self.types[name]]

    def look_at(self, source, owner, text):
        """Takes up each name of a text: a type, a free function, one of an owner, or one of a receiver."""
        text = re.sub(r"::<[^()]*?>(?=\()", "", text)
        for found in re.finditer(r"(?:(\w+)\s*(?:<[^<>]*>)?\s*::\s*|(\.)\s*)?\b([A-Za-z_]\w*)\b", text):
            whose, is_method, name = found[1], found[2], source.names.get(found[3], found[3])
            self.reach_type(name)
            if whose:
                self.reach_type(source.names.get(whose, whose))
            whose = owner if whose == "Self" else source.names.get(whose, whose)
            if is_method or (whose and whose not in self.types):
                self.by_receiver.add(name)
            for function in self.by_name.get(name, []):
                if (function.owner is None and not is_method) or (whose and whose in (function.owner, function.trait)):
                    if function.owner or self.is_seen(source, function):
                        self.reach(function)

    def is_seen(self, source, function):
        """Whether a file may name a free function: of its crate, or of one that it imports."""
        return function.source.crate == source.crate or re.search(rf"\b{function.source.crate}\b", source.code) is not None


def main():
    program = Program()
    wrong, there = 0, {function.key for function in program.unreached}
    for function in program.public():
        if function not in program.reached:
            name = "::".join(part for part in (function.source.crate, function.owner, function.name) if part)
            print(f"{function.source.path.relative_to(TOP)}:{function.line}: {name} is not reached")
            wrong += 1
    for key in KEPT:
        if key not in there:
            print(f"{key} is kept, and reached or gone")
            wrong += 1
    named = 0
    for page in ("README.md", "docs/PROMISES.md"):
        for calls, _ in rows(page):
            for call in calls:
                named += 1
                *owner, name = call.split("::")
                found = [function for function in program.by_name.get(name, []) if not owner or owner[-1] in (function.owner, function.trait, function.source.crate)]
                if not any(function in program.reached or function.is_law for function in found):
                    print(f"{page}: {call} is not reached")
                    wrong += 1
    print(f"{len(program.reached)} functions reached, {len(KEPT)} kept besides, {named} names of calls, {wrong} wrong")
    sys.exit(wrong > 0)


if __name__ == "__main__":
    main()
