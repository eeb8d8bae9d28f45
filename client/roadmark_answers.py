"""What each line of a session answers (docs/MANUAL.md, "A session"): the one table of it, and a reader that takes answers line by line. Nothing here reads or writes."""
from __future__ import annotations

import enum
import re
from collections.abc import Mapping, Sequence
from typing import NamedTuple

# What goes wrong.

CODES = {
    1: "BadLine", 2: "NoProblemLine", 3: "SecondProblemLine", 4: "WrongKind", 5: "NumberRange", 6: "NodeRange", 7: "LengthRange", 8: "LineCount", 9: "TooLarge", 10: "Read",
    11: "OutOfMemory", 12: "Write", 13: "GroupSize", 14: "OpenGroup", 20: "NoSuchArc", 21: "LengthRange", 22: "AlreadyClosed", 23: "AlreadyOpen", 24: "NoSuchNode",
    25: "AlreadyLandmark", 26: "NotALandmark", 27: "TooManyLandmarks", 28: "VersionsExhausted", 29: "NoRoom", 40: "NotAStore", 41: "WrongFormat", 42: "Damaged", 43: "Device",
    44: "JournalFull", 45: "Broken", 46: "NotEmpty", 50: "QueueFull", 51: "NoTask", 52: "OtherNetwork", 53: "NothingPending", 54: "NotYet", 60: "NoReaderPlace", 61: "Closed",
    62: "HistoryFull", 63: "NoThread", 64: "AsksAlone",
}

def shortened(text: str) -> str:
    return text if len(text) <= 80 else f"{text[:77]}..."

class Fault(Exception):
    """Whatever a session raises."""

class Refused(Fault):
    """The answer `no CODE`, alone or behind a version."""

    def __init__(self, code: int, line: str, version: int | None = None) -> None:
        self.code, self.name, self.line, self.version = code, CODES.get(code, "which this module does not know"), line, version
        super().__init__(f"{shortened(line)}: no {code} {self.name}")

class Unknown(Fault):
    """The answer `unknown X` of a session over a log: the change X may be carried out, now or later, or not."""

    def __init__(self, identity: str) -> None:
        self.identity = identity
        super().__init__(f"no answer came in time about the change {identity}")

class Late(Fault):
    """No answer in time."""

class Lost(Fault):
    """The connection ended before the answer did, or there was none to be had."""

class Garbled(Fault):
    """What came is no answer to the line that was told."""

# The lines of a session, and what each of them answers.

class Shape(enum.Enum):
    """How many lines an answer has. `no CODE` may stand in place of its first line, and of the one behind the version, and is the last one then."""
    SILENT = "none"
    END = "none, and the session ends, also within a group, which is dropped"
    GROUP = "none, nor have the lines behind it, until `end` has one"
    LINE = "one"
    VIEW = "the version, and one"
    LIST = "the version, one that ends with a count, and so many; for a route also one alone, that no walk leads there"
    TABLE = "the version, and one for each source with each target"

class Row(NamedTuple):
    """What a line answers."""
    shape: Shape
    # With one of these words begins the line that is neither the version nor an item of a list; for a table, each line behind the version.
    words: frozenset[str] = frozenset()
    # Each item of a list begins with this word.
    item: str = ""
    # So many of the line's own numbers stand first in the answer's line behind the version.
    echoes: int = 0
    # The answer may be that of what is supposed, behind `s V`.
    may_suppose: bool = False
    # The row holds for a line that is spelled so alone; another one has `no CODE`.
    spelled: str = ""

COMMAND = Row(Shape.LINE, frozenset(["ok"]))
OTHER = Row(Shape.LINE)
LENGTHS = frozenset(["d", "x"])
# The commands, and how many numbers each of them has.
COMMANDS = {"set": 2, "close": 1, "reopen": 1, "mark": 1, "unmark": 1, "lay": 3}

ANSWERS: Mapping[str, Row] = {
    **{word: COMMAND for word in COMMANDS},
    "begin": Row(Shape.GROUP, frozenset(["ok"]), spelled="begin"),
    "dist": Row(Shape.VIEW, LENGTHS, echoes=2, may_suppose=True),
    "from": Row(Shape.VIEW, LENGTHS, echoes=2, may_suppose=True),
    "lower": Row(Shape.VIEW, frozenset(["b", "x"]), echoes=2),
    "arc": Row(Shape.VIEW, frozenset(["a"]), echoes=1),
    "arcs": Row(Shape.VIEW, frozenset(["arcs"]), echoes=2),
    "landmarks": Row(Shape.LIST, frozenset(["landmarks"]), "s"),
    "closed": Row(Shape.LIST, frozenset(["closed"]), "close"),
    "table": Row(Shape.TABLE, LENGTHS, may_suppose=True),
    "reach": Row(Shape.LIST, frozenset(["reach"]), "d", echoes=1, may_suppose=True),
    "reached": Row(Shape.LIST, frozenset(["reached"]), "d", echoes=1, may_suppose=True),
    "nearest": Row(Shape.LIST, frozenset(["nearest"]), "d", echoes=1, may_suppose=True),
    "route": Row(Shape.LIST, frozenset(["route", "x"]), "a", echoes=2, may_suppose=True),
    "wait": Row(Shape.LINE, frozenset(["v"])),
    "until": Row(Shape.LINE, frozenset(["v"])),
    "state": Row(Shape.LINE, frozenset(["state"])),
    "copy": Row(Shape.LINE, frozenset(["copied"])),
    "suppose": Row(Shape.GROUP, frozenset(["suppose"]), spelled="suppose"),
    "forget": Row(Shape.LINE, frozenset(["forgotten"])),
    "quit": Row(Shape.END, spelled="quit"),
}

# A session over a log (examples/replicas/tell.py) has two things more: `id X`, and `unknown X` as the answer of a command or a group.
OVER_A_LOG: Mapping[str, Row] = {
    **{word: row._replace(words=row.words | {"unknown"}) if "ok" in row.words else row for word, row in ANSWERS.items()},
    "id": Row(Shape.SILENT, spelled="id [A-Za-z0-9_.-]{1,64}"),
}

NUMBER = "(0|[1-9][0-9]*)"
SPELLINGS = {
    **{word: re.compile(f"{word} {NUMBER}") for word in ("ok", "no", "v", "s", "close", "landmarks", "closed", "copied", "suppose")},
    **{word: re.compile(f"{word} {NUMBER} {NUMBER}") for word in ("x", "reach", "reached", "nearest")},
    **{word: re.compile(f"{word} {NUMBER} {NUMBER} {NUMBER}") for word in ("d", "b")},
    "route": re.compile(f"route {NUMBER} {NUMBER} {NUMBER} {NUMBER}"),
    "a": re.compile(f"a {NUMBER} {NUMBER} {NUMBER} {NUMBER} (open|closed)"),
    "arcs": re.compile(f"arcs {NUMBER} {NUMBER}( {NUMBER})*"),
    "state": re.compile("state( [a-z]+ [a-z0-9.]+)+"),
    "forgotten": re.compile("forgotten"),
    "unknown": re.compile("unknown [A-Za-z0-9_.-]{1,64}"),
}

def fields_of(line: str) -> list[str]:
    """The fields of a line as a server takes them: what stands between blanks and tabs, without one carriage return at the line's end."""
    return [field for field in re.split("[ \t]+", line.removesuffix("\r")) if field]

def digits_of(number: str) -> str:
    """A number of a line as answers spell it."""
    return number.lstrip("0") or "0"

class Expected:
    """The answer to one line, taken line by line as it comes."""

    def __init__(self, line: str, row: Row, numbers: Sequence[str] = ()) -> None:
        self.line, self.row, self.numbers = line, row, numbers
        # The version in which it is answered, or that an accepted command is; whether it is that of what is supposed; the code of a refusal, or 0.
        self.version: int | None = None
        self.is_supposed, self.code, self.unknown = False, 0, ""
        # How many lines are to come, as far as is known, and the words with which the next one may begin.
        self.left, self.is_behind, self.are_items = 1, row.shape not in (Shape.VIEW, Shape.LIST, Shape.TABLE), False
        self.next = (row.words if self.is_behind else frozenset(["v", "s"] if row.may_suppose else ["v"])) | {"no"}

    def take(self, line: str) -> bool:
        """Takes the next line of the answer, and tells whether more of it is to come."""
        word = line.partition(" ")[0]
        if self.left == 0 or word not in self.next or not SPELLINGS[word].fullmatch(line):
            raise Garbled(f"{shortened(self.line)}: {shortened(line)!r} is no answer to it")
        self.left -= 1
        if self.are_items:
            return self.left > 0
        if word == "no":
            self.code = int(line[3:])
        elif self.is_behind:
            self.take_behind(word, line.split(" "))
        else:
            self.version, self.is_supposed, self.is_behind, self.left, self.next = int(line[2:]), word == "s", True, 1, self.row.words | {"no"}
        return self.left > 0

    def take_behind(self, word: str, fields: list[str]) -> None:
        """Takes the line behind the version, or the only one."""
        if [digits_of(number) for number in self.numbers[:self.row.echoes]] != fields[1:1 + self.row.echoes]:
            raise Garbled(f"{shortened(self.line)}: {shortened(' '.join(fields))!r} answers another line")
        if word in ("ok", "v", "copied", "suppose"):
            self.version = int(fields[1])
        elif word == "unknown":
            self.unknown = fields[1]
        elif self.row.shape is Shape.LIST and word != "x":
            self.left, self.are_items, self.next = int(fields[-1]), True, frozenset([self.row.item])
        elif self.row.shape is Shape.TABLE:
            self.left, self.are_items, self.next = self.pairs() - 1, True, self.row.words

    def pairs(self) -> int:
        """How many lines a table has: its first two numbers say."""
        try:
            return int(digits_of(self.numbers[0])) * int(digits_of(self.numbers[1]))
        except (IndexError, ValueError):
            raise Garbled(f"{shortened(self.line)}: it is no table, and has an answer") from None

class Talk:
    """Which answers the lines of one session have; it is asked for each line in its turn."""

    def __init__(self, answers: Mapping[str, Row] = ANSWERS) -> None:
        self.answers, self.is_over = answers, False
        self.group: Row | None = None

    def expect(self, line: str) -> Expected | None:
        """The answer that a line will have, or None where it has none."""
        first, *rest = fields_of(line) or ["#"]
        if first.startswith("#"):
            return None
        row = self.answers.get(first, OTHER)
        if row.shape is Shape.END and not rest:
            self.is_over = True
            return None
        if self.group is not None:
            if first != "end" or rest:
                return None
            row, self.group = self.group, None
            return Expected(line, row)
        if not row.spelled:
            return Expected(line, row, rest)
        if not re.fullmatch(row.spelled, " ".join([first, *rest])):
            return Expected(line, OTHER)
        if row.shape is Shape.GROUP:
            self.group = row
        return None
