#!/usr/bin/env python3
"""A session over the log: its lines and answers are those of a session of `roadmark serve`, but a change goes into the log, and `ok V` says that a majority of etcd and this
machine's store have it, as version V on each machine. All other lines are answered by this machine's server, at a pair of pipes of FOLDER.

    examples/replicas/tell.py [--patience S] URLS NAME FOLDER

Two things are its own: `id X` names the next change, and `unknown X` is told of a change of which so many seconds brought no answer. Who tells the same change with the same
id again, here or on another machine, has its answer, and it is carried out once. docs/REPLICAS.md has the whole.
"""
from __future__ import annotations

import argparse
import itertools
import os
import pathlib
import re
import secrets
import sys
import time
from collections.abc import Callable, Iterable, Iterator
from typing import TypeVar

HERE = pathlib.Path(__file__).resolve()
sys.path[:0] = [str(HERE.parents[2] / "client"), str(HERE.parents[1] / "client")]
from log import LENGTHS, MOST, WORD, Begin, Log, NoLog, Unreachable, word
from roadmark import ANSWERS, COMMANDS, OTHER, Fault, Session, digits_of, fields_of

NUMERAL = re.compile(r"-?[0-9]+")
GREATEST = (1 << 63) - 1
# So many lines of an answer are kept, and told again where the server ends before them. What comes behind them is passed on as it comes.
KEPT = 4096
Result = TypeVar("Result")

class Unanswered(Exception):
    """No answer in time, and why."""

class Ended(Exception):
    """The server ended in an answer that can't be told again, and with it the session."""

def say(text: str) -> None:
    print(f"tell: {text}", file=sys.stderr, flush=True)

def number_in(field: str) -> int | None:
    """The number that a field spells, if it is one that a line may have."""
    digits = digits_of(field)
    return int(digits) if re.fullmatch("[0-9]{1,19}", digits) and int(digits) <= GREATEST else None

def command_of(fields: list[str]) -> tuple[str, int]:
    """The command in the one spelling of the log, and the code of the line's fault, or 0."""
    first, *numbers = fields
    if len(numbers) != COMMANDS.get(first, -1) or not all(NUMERAL.fullmatch(number) for number in numbers):
        return "", 1
    if any(number_in(number) is None for number in numbers):
        return "", 5
    return " ".join([first, *map(digits_of, numbers)]), 0

class Local:
    """A session with this machine's server, begun again where it ends. A line that changes nothing may be told twice; `copy` may not."""

    def __init__(self, folder: str) -> None:
        self.folder = folder
        self.session: Session | None = None
        # Whether the session supposes something, and whether what it supposed is gone with its server.
        self.supposes, self.is_gone = False, False

    def ready(self, until: float) -> None:
        """Sees that there is a session."""
        if self.session is None:
            list(self.answer(["state"], until))

    def leave(self) -> None:
        if self.session is not None:
            self.session.close()
        self.session, self.supposes, self.is_gone = None, False, self.is_gone or self.supposes

    def told(self, lines: list[str], until: float) -> tuple[list[str], Iterator[str]]:
        """The first lines of the answer, and the others as they come."""
        if self.session is None:
            self.session = Session.lease(self.folder, seconds=max(0, until - time.monotonic()))
        # A server that is there has some seconds at least, also where the patience has gone by in waiting for something else.
        answer = self.session.stream(*lines, seconds=max(5, until - time.monotonic()))
        return list(itertools.islice(answer, KEPT)), answer

    def answer(self, lines: list[str], until: float) -> Iterator[str]:
        """The lines of the answer, by the server that is started next where one ends before it has answered; one that is ending tells 61."""
        fields = fields_of(lines[0])
        while True:
            if self.is_gone and (instead := self.without(fields)):
                return iter([instead])
            try:
                first, rest = self.told(lines, until)
                if first != ["no 61"]:
                    return self.passed_on(first, rest)
                why = "the server is ending"
            except Fault as fault:
                why = str(fault)
                if self.session is not None and fields[0] == "copy":
                    raise Ended(f"the copy may have been made, or not: {why}") from None
            self.leave()
            if time.monotonic() > until:
                raise Unanswered(why)
            time.sleep(0.1)

    def without(self, fields: list[str]) -> str:
        """What is answered to a line that needs what was supposed, now that it is gone; nothing to another one."""
        if fields == ["forget"]:
            self.is_gone = False
            return "forgotten"
        if fields[0] != "lower" and not ANSWERS.get(fields[0], OTHER).may_suppose:
            return ""
        say("what was supposed is gone with the server that had it: suppose it again, or forget it")
        return "no 61"

    def passed_on(self, first: list[str], rest: Iterator[str]) -> Iterator[str]:
        yield from first
        try:
            yield from rest
        except Fault as fault:
            raise Ended(f"the answer is cut off: {fault}") from None

    def suppose(self, lines: list[str], until: float) -> Iterator[str]:
        """The answer to a whole group that is supposed: what was supposed before is so no longer."""
        self.supposes = self.is_gone = False
        [answer] = self.answer(["suppose", *lines, "end"], until)
        self.supposes = answer.startswith("suppose")
        return iter([answer])

    def forget(self, until: float) -> Iterator[str]:
        answer = self.answer(["forget"], until)
        self.supposes = False
        return answer

class Group:
    """The lines of an open group, as far as they count: up to the first one that has a fault, or is a command too many."""

    def __init__(self, most: int, supposed: bool = False) -> None:
        self.is_supposed, self.most, self.fault = supposed, most, 0
        self.lines: list[str] = []
        self.commands: list[str] = []

    def take(self, text: str, fields: list[str]) -> None:
        if self.fault:
            return
        command, self.fault = command_of(fields)
        if len(self.commands) == self.most:
            self.fault = self.fault or 13
        self.lines.append(text)
        self.commands.append(command)

class Teller:
    """The client's lines, one after the other."""

    def __init__(self, told: argparse.Namespace) -> None:
        self.log, self.local, self.patience = Log(told.urls, told.name), Local(told.folder), float(told.patience)
        self.start: Begin | None = None
        self.identity: str | None = None
        self.group: Group | None = None

    def line(self, text: str) -> Iterable[str] | None:
        """The answer's lines, or None at the line that ends the session."""
        fields = fields_of(text)
        if not fields or fields[0].startswith("#"):
            return []
        if fields == ["quit"]:
            return None
        if self.group is not None:
            return self.grouped(self.group, text, fields)
        if fields in (["begin"], ["suppose"]):
            self.group = Group(MOST) if fields == ["begin"] else Group(MOST + 1, supposed=True)
            return []
        if fields[0] == "id" and len(fields) == 2 and WORD.fullmatch(fields[1]):
            self.identity = fields[1]
            return []
        if fields[0] in COMMANDS:
            command, fault = command_of(fields)
            return [self.change([command], fault)]
        return self.asked(lambda until: self.ask(text, fields, until))

    def grouped(self, group: Group, text: str, fields: list[str]) -> Iterable[str]:
        """A line within a group, which is answered at its end."""
        if fields != ["end"]:
            group.take(text, fields)
            return []
        self.group = None
        if group.is_supposed:
            return self.asked(lambda until: self.local.suppose(group.lines, until))
        return [self.change(group.commands, group.fault or (0 if group.commands else 13))]

    def asked(self, call: Callable[[float], Iterator[str]]) -> Iterable[str]:
        try:
            return call(time.monotonic() + self.patience)
        except Unanswered as why:
            say(f"no 61: {why}")
            return ["no 61"]

    def ask(self, text: str, fields: list[str], until: float) -> Iterator[str]:
        """The server's answer. What is waited for is asked once it is there: a session that waits holds its pair of pipes as long as that takes."""
        if fields == ["forget"]:
            return self.local.forget(until)
        number = number_in(fields[1]) if fields[0] == "until" and len(fields) == 2 else None
        if number is not None and not self.is_shown(number, until):
            return iter(["no 54"])
        return self.local.answer([text], until)

    def change(self, commands: list[str], fault: int) -> str:
        identity, self.identity = self.identity or secrets.token_hex(16), None
        if fault:
            return f"no {fault}"
        until = time.monotonic() + self.patience
        try:
            self.local.ready(until)
        except Unanswered as why:
            say(f"no 61, and nothing was told to the log: {why}")
            return "no 61"
        try:
            return self.outcome(identity, commands, until)
        except Unanswered as why:
            say(f"unknown {identity}: {why}")
            return f"unknown {identity}"

    def outcome(self, identity: str, commands: list[str], until: float) -> str:
        """Appends the change, waits until this machine shows it, and asks whether it was refused: each store does what this one did."""
        start = self.start = self.start or self.steadily(self.log.begin, until)
        entry = self.steadily(lambda: self.log.append(identity, commands), until)
        if entry.commands != commands:
            say(f"no 1: the id {identity} is that of another change, entry {entry.number}")
            return "no 1"
        version = start.version + entry.number - start.entry
        if not self.is_shown(version, until):
            raise Unanswered(f"it is entry {entry.number} of the log, and this machine does not show version {version} yet")
        self.see(start, until)
        code = self.steadily(lambda: self.log.code(entry.number), until)
        if code is None:
            raise Unanswered(f"it was entry {entry.number} of the log, which has been cut off since")
        return f"no {code}" if code else f"ok {version}"

    def is_shown(self, version: int, until: float) -> bool:
        """Waits until this machine's server shows the version, and tells whether it does in time."""
        pause = 0.001
        while True:
            words = next(self.local.answer(["state"], until)).split()
            if words[0] == "state" and int(words[2]) >= version:
                return True
            if time.monotonic() > until:
                return False
            time.sleep(pause)
            pause = min(1.5 * pause, 0.02)

    def see(self, start: Begin, until: float) -> None:
        """Sees that the store came to its version by the log: the arc that is kept for it has the number of the version's entry."""
        while True:
            first, *rest = self.local.answer([f"arc {start.arc}"], until)
            if rest and rest[0].startswith("a ") and (int(first.split()[1]) - start.version + start.entry - int(rest[0].split()[4])) % LENGTHS == 0:
                return
            if time.monotonic() > until:
                raise Unanswered(f"arc {start.arc} of this machine's store does not have the number of its entry: somebody else writes to it")
            time.sleep(0.1)

    def steadily(self, call: Callable[[], Result], until: float) -> Result:
        while True:
            try:
                return call()
            except Unreachable as why:
                if time.monotonic() > until:
                    raise Unanswered(str(why)) from None
                time.sleep(0.1)

def serve(teller: Teller) -> None:
    for line in sys.stdin.buffer:
        # A line that is cut off is no line.
        answer = teller.line(line[:-1].decode("utf-8", "surrogateescape")) if line.endswith(b"\n") else None
        if answer is None:
            break
        for told in answer:
            sys.stdout.write(told + "\n")
        sys.stdout.flush()

def main() -> int:
    parser = argparse.ArgumentParser(prog="tell.py", description="A session over the log of changes.")
    parser.add_argument("--patience", type=float, default=30, help="so many seconds for an answer, 30")
    parser.add_argument("urls", type=lambda text: text.split(","))
    parser.add_argument("name", type=word)
    parser.add_argument("folder")
    teller = Teller(parser.parse_args())
    try:
        serve(teller)
    except (NoLog, Ended) as why:
        say(str(why))
        return 3 if isinstance(why, NoLog) else 1
    except BrokenPipeError:
        os.dup2(os.open(os.devnull, os.O_WRONLY), sys.stdout.fileno())
    finally:
        teller.local.leave()
    return 0

if __name__ == "__main__":
    sys.exit(main())
