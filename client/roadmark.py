"""Sessions with a roadmark server, by the standard library alone. It needs Python 3.11.

A session begins in one of three ways, and ends with `close`, or with the `with` block:

    with Session.start(["roadmark", "serve", "my.store"]) as session:    # a server of its own
    with Session.lease("/run/roadmark/pairs") as session:                # a free pair of named pipes of a server
    with Session.connect("/run/roadmark.sock") as session:               # a local socket; ("127.0.0.1", 7322) for TCP
        version, length = session.distance(1, 6)                         # the length is None where no walk leads there
        version = session.group(["close 7", "set 8 4"])                  # durable as this version
        session.wait()                                                   # the answers have it from here on

Each call tells one line, or one group, and reads its whole answer. What may go wrong is a `Fault`:

    Refused     the server answered `no CODE`: `code` and `name` say why, and the session goes on. 54 NotYet: the version that `until` waits for was not shown within the
                server's `--patience`. 64 AsksAlone: this pair of pipes is for clients that change nothing
    Unknown     a session over a log had no answer about a change in time: tell it again with the same id
    Late        the answer did not come within `seconds`, or within the session's `patience`
    Lost        the connection ended before the answer did, or there was none to be had: so also where the server has taken all commands of its life, and is started again
    Garbled     what came is no answer to the line that was told

After the last three the session is over, and `fault` says why: close it, and begin another one. A command that was told then may have been carried out.

`ask` takes any line and gives its `Answer`. `stream` gives the lines of an answer one by one as they come, `no CODE` too, so that a large table takes no memory;
there the time limit is that of the next line. `Talk` and `Expected` know what each line answers and read nothing themselves, for a program that does (asyncio):

    expected = talk.expect("reach 1 900")        # None where the line has no answer
    while expected.take((await reader.readline()).decode().removesuffix("\\n")): ...

A session is for one thread at a time. A pool keeps several, and begins a new one in the place of one that is over.
"""
from __future__ import annotations

import dataclasses
import os
import time
from collections.abc import Iterable, Iterator, Mapping, Sequence
from typing import NamedTuple

from roadmark_answers import (ANSWERS, CODES, COMMANDS, OTHER, OVER_A_LOG, Expected, Fault, Garbled, Late, Lost, Refused, Row, Shape, Talk, Unknown, digits_of, fields_of, shortened)
from roadmark_wires import Address, Connection, Pair, Path, Process, Wire, leased

__all__ = ["ANSWERS", "CODES", "COMMANDS", "OTHER", "OVER_A_LOG", "Answer", "Arc", "Expected", "Fault", "Garbled", "Late", "Length", "Lost", "Refused", "Row", "Session", "Shape", "Talk", "Unknown",
           "Wire", "digits_of", "fields_of"]

# More than the server's own `--patience`, which is 30 seconds where none is given: so `until` is answered, and the session goes on.
PATIENCE = 60.0
Length = int | None

@dataclasses.dataclass(frozen=True)
class Answer:
    """The whole answer to a line that was not refused. The version is that of the answer, or of the command; a line that does not name one has none."""
    lines: list[str]
    version: int | None
    is_supposed: bool

class Arc(NamedTuple):
    number: int
    tail: int
    head: int
    length: int
    is_open: bool

def length_of(line: str) -> Length:
    fields = line.split(" ")
    return int(fields[3]) if len(fields) > 3 else None

def arc_of(line: str) -> Arc:
    _, number, tail, head, length, state = line.split()
    return Arc(int(number), int(tail), int(head), int(length), state == "open")

class Session:
    """A session over a wire, which `start`, `lease` and `connect` make. Versions come first in what the queries give."""

    def __init__(self, wire: Wire, patience: float = PATIENCE, answers: Mapping[str, Row] = ANSWERS) -> None:
        self.wire, self.patience, self.talk = wire, patience, Talk(answers)
        # The answer that is not read to its end yet, and why the session is over, if it is.
        self.open: Expected | None = None
        self.fault: Fault | None = None

    @classmethod
    def start(cls, words: Sequence[Path], patience: float = PATIENCE, answers: Mapping[str, Row] = ANSWERS, errors: int | None = None) -> Session:
        """A session on the standard streams of a program that is started for it, with its standard error where `errors` says, as of subprocess."""
        return cls(Process(words, errors), patience, answers)

    @classmethod
    def lease(cls, folder: Path, patience: float = PATIENCE, seconds: float = 10.0) -> Session:
        """A session at a pair of pipes of the folder. A free one is waited for so long."""
        return cls(leased(os.fspath(folder), time.monotonic() + seconds), patience)

    @classmethod
    def connect(cls, address: Address, patience: float = PATIENCE, answers: Mapping[str, Row] = ANSWERS) -> Session:
        """A session over a socket."""
        return cls(Connection(address, patience), patience, answers)

    def __enter__(self) -> Session:
        return self

    def __exit__(self, *_: object) -> None:
        self.close()

    def close(self, seconds: float | None = None) -> int | None:
        """Ends the session; the status of the server that was started for it, which is killed where it does not end in so many seconds, 60."""
        self.fault = self.fault or Lost("the session is closed")
        return self.wire.close(self.wire.rest if seconds is None else seconds)

    # Any line.

    def ask(self, *lines: str, seconds: float | None = None) -> Answer:
        """Tells a line, or the lines of a group, and reads the whole answer within so many seconds."""
        until = time.monotonic() + (self.patience if seconds is None else seconds)
        expected, answer = self.tell(lines, until), []
        while self.open is not None:
            answer.append(self.hear(until))
        if expected is None:
            return Answer([], None, False)
        if expected.code:
            raise Refused(expected.code, lines[-1] if len(lines) == 1 else f"{lines[0]} .. {lines[-1]}", expected.version)
        if expected.unknown:
            raise Unknown(expected.unknown)
        return Answer(answer, expected.version, expected.is_supposed)

    def stream(self, *lines: str, seconds: float | None = None) -> Iterator[str]:
        """Tells the same, and gives each line of the answer once it is there. What is not read then is passed over by the next call."""
        limit = self.patience if seconds is None else seconds
        return self.lines_of(self.tell(lines, time.monotonic() + limit), limit)

    def lines_of(self, expected: Expected | None, limit: float) -> Iterator[str]:
        while expected is not None and self.open is expected:
            yield self.hear(time.monotonic() + limit)

    def tell(self, lines: Sequence[str], until: float) -> Expected | None:
        """Sends lines of which the last one alone may have an answer."""
        if self.fault is not None:
            raise Lost(f"the session is over: {self.fault}") from self.fault
        if any("\n" in line for line in lines):
            raise ValueError("a line has a line feed")
        while self.open is not None:
            self.hear(until)
        group = self.talk.group
        expected = [self.talk.expect(line) for line in lines]
        if any(each is not None for each in expected[:-1]):
            self.talk.group = group
            raise ValueError(f"{shortened(lines[0])!r}: a line before the last one has an answer of its own")
        try:
            self.wire.send("".join(f"{line}\n" for line in lines).encode("utf-8", "surrogateescape"), until)
        except Fault as fault:
            self.fault = fault
            raise
        self.open = expected[-1] if expected else None
        if self.talk.is_over:
            self.fault = Lost("the session was told to quit")
        return self.open

    def hear(self, until: float) -> str:
        """The next line of the answer that is open."""
        assert self.open is not None
        try:
            line = self.wire.line(until)
            if not self.open.take(line):
                self.open = None
            return line
        except Fault as fault:
            self.fault = fault
            raise

    def number(self, *lines: str, seconds: float | None) -> int:
        """The version that the answer names."""
        version = self.ask(*lines, seconds=seconds).version
        assert version is not None
        return version

    def view(self, line: str, seconds: float | None) -> tuple[int, list[str]]:
        """The version that the answer has, and the lines behind it."""
        answer = self.ask(line, seconds=seconds)
        assert answer.version is not None
        return answer.version, answer.lines[1:]

    # Commands: each gives the version that it is, and is durable then. An id is for a session over a log alone.

    def change(self, command: str, identity: str | None = None, seconds: float | None = None) -> int:
        return self.number(*([f"id {identity}"] if identity else []), command, seconds=seconds)

    def group(self, commands: Iterable[str], identity: str | None = None, seconds: float | None = None) -> int:
        return self.number(*([f"id {identity}"] if identity else []), "begin", *commands, "end", seconds=seconds)

    # Queries: a length is None where no walk leads there.

    def distance(self, source: int, target: int, seconds: float | None = None) -> tuple[int, Length]:
        """The least length of a walk."""
        version, [line] = self.view(f"dist {source} {target}", seconds)
        return version, length_of(line)

    def distance_from(self, landmark: int, target: int, seconds: float | None = None) -> tuple[int, Length]:
        """The same from a landmark, without a search."""
        version, [line] = self.view(f"from {landmark} {target}", seconds)
        return version, length_of(line)

    def lower(self, source: int, target: int, seconds: float | None = None) -> tuple[int, Length]:
        """A bound that no walk is shorter than."""
        version, [line] = self.view(f"lower {source} {target}", seconds)
        return version, length_of(line)

    def table(self, sources: Sequence[int], targets: Sequence[int], seconds: float | None = None) -> tuple[int, list[list[Length]]]:
        """A row for each source, with the least length to each target."""
        version, lines = self.view(" ".join(map(str, ["table", len(sources), len(targets), *sources, *targets])), seconds)
        lengths = [length_of(line) for line in lines]
        return version, [lengths[first:first + len(targets)] for first in range(0, len(lengths), len(targets))]

    def reach(self, source: int, limit: int, seconds: float | None = None) -> tuple[int, dict[int, int]]:
        """The nodes to which walks within the limit lead, with the least length to each."""
        version, [_, *lines] = self.view(f"reach {source} {limit}", seconds)
        return version, {int(fields[2]): int(fields[3]) for fields in map(str.split, lines)}

    def reached(self, target: int, limit: int, seconds: float | None = None) -> tuple[int, dict[int, int]]:
        """The nodes from which walks within the limit lead to the target, with the least length from each."""
        version, [_, *lines] = self.view(f"reached {target} {limit}", seconds)
        return version, {int(fields[1]): int(fields[3]) for fields in map(str.split, lines)}

    def nearest(self, source: int, count: int, seconds: float | None = None) -> tuple[int, list[tuple[int, int]]]:
        """So many landmarks nearest to the source, the nearest first, with the least length to each."""
        version, [_, *lines] = self.view(f"nearest {source} {count}", seconds)
        return version, [(int(fields[2]), int(fields[3])) for fields in map(str.split, lines)]

    def route(self, source: int, target: int, seconds: float | None = None) -> tuple[int, Length, list[Arc]]:
        """A shortest walk: its length, and its arcs in order."""
        version, [first, *lines] = self.view(f"route {source} {target}", seconds)
        return version, length_of(first), [arc_of(line) for line in lines]

    # A look at the network.

    def arc(self, number: int, seconds: float | None = None) -> tuple[int, Arc]:
        version, [line] = self.view(f"arc {number}", seconds)
        return version, arc_of(line)

    def arcs(self, tail: int, head: int, seconds: float | None = None) -> tuple[int, list[int]]:
        """The numbers of all arcs from the one node to the other."""
        version, [line] = self.view(f"arcs {tail} {head}", seconds)
        return version, [int(number) for number in line.split()[3:]]

    def landmarks(self, seconds: float | None = None) -> tuple[int, list[int]]:
        version, [_, *lines] = self.view("landmarks", seconds)
        return version, [int(line.split()[1]) for line in lines]

    def closed(self, seconds: float | None = None) -> tuple[int, list[int]]:
        """The numbers of all closed arcs."""
        version, [_, *lines] = self.view("closed", seconds)
        return version, [int(line.split()[1]) for line in lines]

    # Versions, what is supposed, and how the server stands.

    def wait(self, seconds: float | None = None) -> int:
        """Waits until this session's last command is shown; the version that is shown then."""
        return self.number("wait", seconds=seconds)

    def until(self, version: int, seconds: float | None = None) -> int:
        """Waits until the version is shown, whoever's commands lead to it; the version that is shown then. Where the server's patience ends before, it is `Refused` with 54."""
        return self.number(f"until {version}", seconds=seconds)

    def suppose(self, commands: Iterable[str], seconds: float | None = None) -> int:
        """Supposes a group on the version that it gives. Lengths, tables, routes and what is near are answered so until `forget`."""
        return self.number("suppose", *commands, "end", seconds=seconds)

    def forget(self, seconds: float | None = None) -> None:
        self.ask("forget", seconds=seconds)

    def state(self, seconds: float | None = None) -> dict[str, str]:
        """How the server stands: the words of its line, `shown`, `durable` .. `arcs`, `room`, `clients`, `pairs`, `waiting` and `uptime`, each with what stands behind it."""
        words = self.ask("state", seconds=seconds).lines[0].split()
        return dict(zip(words[1::2], words[2::2]))

    def copy(self, name: str, seconds: float | None = None) -> int:
        """Makes a copy of this name in the server's folder of copies; its version."""
        return self.number(f"copy {name}", seconds=seconds)
