#!/usr/bin/env python3
"""Holds the calls and clauses that docs/PROMISES.md and README.md name against crates/*/src.

    tools/compare_clauses.py [--list]

Each call that a page names has to be there, with the clauses that its row names. Each call of
docs/PROMISES.md has to be one that `main` reaches, by names alone, or a law: a function without
code. With --list it writes every public function that has a contract, crate by crate, to standard
output, with the first sentence of its comment and the names of its clauses, and marks those that
`main` does not reach.
A lone clause that is a record of the crate's definitions has the record's fields as its clauses.
"""
import functools
import pathlib
import re
import sys

TOP = pathlib.Path(__file__).resolve().parent.parent
NAME = re.compile(r"`([^`]+)`")
FUNCTION = re.compile(r"( *)(pub(?:\([a-z]+\))? )?(?:ghost )?fn (\w+)")
CLAUSE = re.compile(r" *ensures\*? (?:(\w+) )?\{ *(\w*)")
CALLED = re.compile(r"\b([a-z_]\w*)\b")


class Function:
    """A function of the sources: where it stands, what it ensures and which names its body has."""

    def __init__(self, crate, head, match, comment):
        self.crate = crate
        self.name = match[3]
        self.owners = {crate} | (set(re.findall(r"\w+", head)) if match[1] else set())
        self.type = type_of(head) if match[1] else ""
        self.public = match[2] == "pub " or bool(match[1]) and head.startswith("pub trait")
        self.comment = re.split(r"(?<=[.]) ", " ".join(comment))[0]
        self.clauses, self.has_contract, self.called = [], False, set()
        self.body, self.is_law = match.string.rstrip().endswith("{"), False

    def take(self, line):
        """Takes one more line of the function."""
        clause = CLAUSE.match(line)
        if clause and not self.body:
            self.has_contract = True
            self.clauses += [clause[1]] if clause[1] else records(self.crate).get(clause[2], [])
        self.is_law = self.is_law or not self.body and line.strip() == "{}"
        self.body = self.body or line.rstrip().endswith("{") and not re.match(r" *\w+\*? ", line)
        if not re.match(r" *(ensures|requires|//|ghost)", line):
            self.called |= set(CALLED.findall(line))


@functools.cache
def records(crate):
    """The records of a crate's definitions, each with the names of its fields."""
    found, fields = {}, []
    for source in sorted((TOP / "crates" / crate / "specs").glob("*.antt")):
        for line in source.read_text().splitlines():
            if head := re.match(r"pub record (\w+)", line):
                fields = found.setdefault(head[1], [])
            elif field := re.match(r"  pub (\w+) :", line):
                fields.append(field[1])
    return found


def type_of(head):
    """The name of the type, or the trait, of a block with this head."""
    while re.search(r"<[^<>]*>", head):
        head = re.sub(r"<[^<>]*>", "", head)
    names = re.findall(r"\w+", head.split(" where")[0].split(" for ")[-1].split(":")[0])
    names = [name for name in names if name not in ("pub", "impl", "trait", "dyn", "mut")]
    return names[0] if names else ""


def functions():
    """Every function of the product's sources, in the order of crates.txt."""
    crates = [line.split(":")[0] for line in (TOP / "crates.txt").read_text().splitlines()]
    for crate in crates:
        if crate.endswith(("_tests", "fixtures")):
            continue
        for source in sorted((TOP / "crates" / crate / "src").glob("**/*.rt")):
            yield from functions_of(crate, source)


def functions_of(crate, source):
    """The functions of one file."""
    head, heading, comment, last = "", False, [], None
    for line in source.read_text().splitlines():
        if re.match(r"(pub )?(impl|trait)\b", line):
            head, heading, last = "", True, None
        if heading:
            head, heading = head + line + " ", "{" not in line
        match = FUNCTION.match(line)
        if match:
            last, comment = Function(crate, head, match, comment), []
            yield last
        elif line.strip().startswith("///"):
            comment.append(line.strip()[3:].strip())
        elif last:
            last.take(line)
        if not line.strip():
            comment = []


def reached_from_main(found):
    """The names that `main` reaches: what its body names, and so on, whatever the receiver."""
    reached, left = set(), ["main"]
    while left:
        name = left.pop()
        if name in found and name not in reached:
            reached.add(name)
            left += [called for function in found[name] for called in function.called]
    return reached


def named(call, found):
    """The functions that a page names so: by a name, with the type or the crate before it."""
    *owner, name = call.split("::")
    return [one for one in found.get(name, []) if not owner or owner[-1] in one.owners]


def rows(page):
    """The calls and the clauses of each row of a table of promises: of one whose last column is
    "By" each of its parts, `CALL`: `CLAUSE`."""
    by_parts = False
    for line in (TOP / page).read_text().splitlines():
        cells = [cell.strip() for cell in re.split(r"(?<!\\)\|", line)[1:-1]]
        if len(cells) != 3:
            continue
        if cells[0] in ("Call", "Crate", "Promised"):
            by_parts = cells[2] == "By"
        elif by_parts:
            for part in cells[2].split(";"):
                calls, _, clauses = part.rpartition(":") if "`:" in part else (part, "", "")
                yield NAME.findall(calls), NAME.findall(clauses)
        elif page != "README.md":
            yield NAME.findall(cells[0]), NAME.findall(cells[1])


def faults(page, found, reached):
    """How many clauses the page names, and what is wrong with its rows."""
    count, wrong = 0, []
    for calls, clauses in rows(page):
        count += len(clauses)
        have = {call: {c for one in named(call, found) for c in one.clauses} for call in calls}
        for clause in clauses:
            if not any(clause in names for names in have.values()):
                wrong.append(f"no {calls} has a clause {clause}")
        for call in calls:
            there = named(call, found)
            if not there:
                wrong.append(f"there is no call {call}")
            elif clauses and not have[call] & set(clauses):
                wrong.append(f"{call} has none of {clauses}")
            elif page != "README.md" and not any(f.is_law or f.name in reached for f in there):
                wrong.append(f"main does not reach {call}")
    return count, wrong


def write_list(every, reached):
    """Writes each crate's public functions that have a contract, as one table a crate."""
    crate = None
    for one in every:
        if not one.public or not one.has_contract:
            continue
        if one.crate != crate:
            crate = one.crate
            print(f"\n## {crate}\n\n| Call | Does | Clauses |\n|---|---|---|")
        call = f"{one.type}::{one.name}" if one.type else one.name
        unreached = not one.is_law and one.name not in reached
        does = one.comment.replace("|", "\\|") + (" (`main` does not reach it)" if unreached else "")
        print(f"| `{call}` | {does} | {', '.join(f'`{clause}`' for clause in one.clauses)} |")


def main():
    every, found = list(functions()), {}
    for function in every:
        found.setdefault(function.name, []).append(function)
    reached = reached_from_main(found)
    if "--list" in sys.argv[1:]:
        write_list(every, reached)
        return 0
    total = wrong = 0
    for page in ("docs/PROMISES.md", "README.md"):
        count, faulty = faults(page, found, reached)
        total, wrong = total + count, wrong + len(faulty)
        for fault in faulty:
            print(f"{page}: {fault}")
    print(f"{total} names of clauses, {wrong} wrong")
    return wrong > 0


if __name__ == "__main__":
    sys.exit(main())
