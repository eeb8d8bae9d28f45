#!/usr/bin/env python3
"""A second reader of networks' texts, by docs/TEXTS.md alone. It writes crates/cases/data/texts/changed_bytes.cases: each front of the text of the worked network, and that text with one
byte in place of another, and what it tells of each.

    tools/second_reader.py > crates/cases/data/texts/changed_bytes.cases"""
import re

SIX = b"c S6\np sp 6 8\na 1 2 17\na 1 3 10\na 2 4 2\na 3 5 0\na 4 3 0\na 4 6 3\na 5 2 0\na 5 6 20\n"
NAMES = {1: "BadLine", 2: "NoProblemLine", 3: "SecondProblemLine", 4: "WrongKind", 5: "NumberRange", 6: "NodeRange", 7: "LengthRange", 8: "LineCount", 9: "TooLarge"}
MOST = 2**63 - 1

HEAD = """Each front of the text of the worked network, and that text with each of its bytes replaced by a byte 0, a line feed, a minus and a byte 255: what a second reader tells of it
(tools/second_reader.py).

== changed bytes
# Refused is a reader that judges a line by another rule, or at another place.
gr each read-by 7"""

def numerals(fields):
    """The numbers that the fields spell, or nothing where one is no numeral."""
    return [int(it) for it in fields] if all(re.fullmatch(rb"-?[0-9]+", it) for it in fields) else None

class Reader:
    def __init__(self):
        self.announced, self.arcs = None, []

    def faults_of_problem(self, fields):
        """Which faults a `p` line has."""
        second = {3} if self.announced else set()
        if fields[1:2] != [b"sp"]:
            return {4} | second
        numbers = numerals(fields[2:])
        if len(fields) != 4 or numbers is None:
            return {1} | second
        nodes, arcs = numbers
        found = second | ({5} if not 1 <= nodes <= MOST or not 0 <= arcs <= MOST else set()) | ({9} if nodes > 2**25 or arcs > 2**26 else set())
        if not found:
            self.announced = nodes, arcs
        return found

    def faults_of_arc(self, fields):
        """Which faults an `a` line has."""
        numbers = numerals(fields[1:])
        if len(fields) != 4 or numbers is None:
            return {1}
        if not self.announced:
            return {2}
        (tail, head, length), (nodes, arcs) = numbers, self.announced
        found = {5} if max(map(abs, numbers)) > MOST else set()
        found |= {6} if not 1 <= tail <= nodes or not 1 <= head <= nodes else set()
        found |= {7} if not 0 <= length <= 2147483647 else set()
        found |= {8} if len(self.arcs) == arcs else set()
        self.arcs.append((tail, head, length))
        return found

    def faults_of_line(self, line):
        fields = [it for it in re.split(rb"[ \t]", line.removesuffix(b"\r")) if it]
        if not fields or fields[0][:1] == b"c":
            return set()
        return {b"p": self.faults_of_problem, b"a": self.faults_of_arc}.get(fields[0], lambda _: {1})(fields)

    def told(self, text):
        """The network, or its first fault, in one line."""
        lines = text.removesuffix(b"\n").split(b"\n") if text else []
        for number, line in enumerate(lines, 1):
            found = self.faults_of_line(line)
            if found:
                return f"line {number}: {min(found)} {NAMES[min(found)]}"
        if not self.announced or len(self.arcs) < self.announced[1]:
            code = 8 if self.announced else 2
            return f"line {len(lines)}: {code} {NAMES[code]}"
        return " / ".join(["p sp %d %d" % self.announced, *("a %d %d %d" % arc for arc in self.arcs)])

def spelled(text):
    """A row of a file of cases that spells a text."""
    row = text.removesuffix(b"\n").decode("latin-1").replace("\0", "\\0").replace("\xff", "\\xff").replace("\n", " / ")
    return row if text.endswith(b"\n") else row + "\\"

def main():
    fronts = [SIX[:at] for at in range(len(SIX))]
    changed = [SIX[:at] + bytes([byte]) + SIX[at + 1 :] for at in range(len(SIX)) for byte in (0, 10, 45, 255)]
    print(HEAD)
    for text in fronts + changed:
        print(spelled(text))
    print("----")
    for text in fronts + changed:
        print(Reader().told(text))

if __name__ == "__main__":
    main()
