#!/usr/bin/env python3
"""Carries the log of changes out on this machine's store: it starts the server, tells it each entry as one group, and starts it again where it ends.

    examples/replicas/follow.py [--program P] [--pairs N] [--workers W] [--delta D] [--copies C] [--machine M] [--lease S] [--keep N] URLS NAME STORE FOLDER
    examples/replicas/follow.py [--program P] --begin K URLS NAME STORE

URLS are those of etcd's members, with commas between them, this machine's first. The server has N pairs of pipes in FOLDER, for tell.py alone. --begin makes the log, once, on one machine: it begins behind
what STORE has, and arc K of the store, a loop that nobody uses, keeps the number of the last entry. docs/REPLICAS.md has the whole. Status 3 is for what no new start mends.
"""
from __future__ import annotations

import argparse
import math
import os
import pathlib
import queue
import signal
import socket
import struct
import subprocess
import sys
import threading
import time
from collections.abc import Callable
from typing import TypeVar

HERE = pathlib.Path(__file__).resolve()
EXAMPLES = HERE.parents[1]
sys.path[:0] = [str(HERE.parents[2] / "client"), str(EXAMPLES / "client")]
from log import LENGTHS, Begin, Entry, Log, NoLog, Unreachable, fault_of, word
from roadmark import Fault, Refused, Session

# What an entry may be refused for. It is so on each machine, whatever its memory and its disk do.
OWN = {1, 5, 13, *range(20, 30)}
# A server that is there answers within so many seconds, or is started again. How long an opening takes is not known.
PATIENCE = 600.0
Result = TypeVar("Result")

class Lost(Exception):
    """The server ended or can't go on, so it is started again, and the same entry tried again."""

class Astray(Exception):
    """The store and the log don't belong together, and no new start mends that."""

def say(text: str) -> None:
    print(f"follow: {text}", file=sys.stderr, flush=True)

class Server:
    """The server of a store. Nobody else writes to it."""

    def __init__(self, store: str, words: list[str], program: str) -> None:
        # After a write that failed the system may hold pages that the disk lacks (docs/OPERATING.md, "After 43").
        with open(store, "rb") as file:
            # The nodes, as the header of the store has them (docs/STORE_FORMAT.md).
            header = file.read(16)
            [self.nodes] = struct.unpack(">12xI", header) if len(header) == 16 else [0]
            os.posix_fadvise(file.fileno(), 0, 0, os.POSIX_FADV_DONTNEED)
        self.session = Session.start([program, "serve", store, *words], patience=PATIENCE)

    def settle(self) -> None:
        """Waits until what is accepted is durable, and shown: what `state` then tells of the network is so until the next change."""
        while True:
            state = self.session.state(seconds=math.inf)
            if state["accepted"] == state["durable"] == state["shown"]:
                return
            self.look(state)
            time.sleep(0.05)

    def look(self, state: dict[str, str]) -> None:
        if state["flusher"] != "on" or state["builder"] != "on":
            raise Lost(f"its flusher is {state['flusher']}, its builder {state['builder']}")

    def number(self, word: str) -> int:
        """A number that `state` tells."""
        return int(self.session.state()[word])

    def mark(self, arc: int) -> tuple[int, int]:
        """The version, and the length of the loop that keeps the last entry's number."""
        if not 1 <= arc <= self.number("arcs"):
            raise Astray(f"the store has no arc {arc}")
        version, loop = self.session.arc(arc)
        if loop.tail != loop.head:
            raise Astray(f"arc {arc} of the store is no loop")
        return version, loop.length

    def counts(self) -> tuple[int, int, int]:
        """How many arcs, landmarks and closed arcs there are."""
        return self.number("arcs"), self.number("landmarks"), len(self.session.closed()[1])

    def carry_out(self, commands: list[str], arc: int, number: int) -> int:
        """One group: the commands, and the number behind them. The version that it is."""
        return self.session.group([*commands, f"set {arc} {number % LENGTHS}"])

class Waiting:
    """Tells why the log is waited for, once a minute at most."""

    def __init__(self) -> None:
        self.next = 0.0

    def tell(self, why: Unreachable) -> None:
        if time.monotonic() >= self.next:
            self.next = time.monotonic() + 60
            say(f"waits for the log: {why}")

class Tail(threading.Thread):
    """The entries of the log from a number on, in their order, read ahead of who carries them out."""

    def __init__(self, log: Log, first: int, waiting: Waiting) -> None:
        super().__init__(daemon=True)
        self.log, self.number, self.waiting, self.is_let_go = log, first, waiting, False
        self.entries: queue.Queue[Entry | Exception] = queue.Queue(1000)
        self.start()

    def run(self) -> None:
        while not self.is_let_go:
            try:
                self.read()
            except Unreachable as why:
                self.waiting.tell(why)
                time.sleep(0.2)
            except Exception as fault:
                self.hand_on(fault)
                return

    def read(self) -> None:
        entries, head, revision = self.log.entries(self.number)
        if head is None or head < self.number - 1:
            raise Astray(f"the store has entry {self.number - 1}, and the log ends at {head}: etcd has lost entries")
        if head >= self.number and (not entries or entries[0].number != self.number):
            raise Astray(f"entry {self.number} has been cut off: this machine begins with a copy of another one's store")
        for entry in entries:
            self.take(entry)
        if not entries:
            for entry in self.log.watch(self.number, revision + 1):
                if entry.number != self.number or self.is_let_go:
                    return
                self.take(entry)

    def take(self, entry: Entry) -> None:
        if entry.number != self.number:
            raise Astray(f"the log has entry {entry.number} where {self.number} should stand")
        self.hand_on(entry)
        self.number += 1

    def hand_on(self, what: Entry | Exception) -> None:
        while not self.is_let_go:
            try:
                return self.entries.put(what, timeout=0.5)
            except queue.Full:
                pass

    def next(self, seconds: float) -> Entry | None:
        """The next entry, or None where none comes in so many seconds."""
        try:
            entry = self.entries.get(timeout=seconds)
        except queue.Empty:
            return None
        if isinstance(entry, Exception):
            raise entry
        return entry

class Place(threading.Thread):
    """Keeps in the log up to which entry this machine has it, and cuts off what all machines have."""

    def __init__(self, log: Log, follower: Follower, machine: str, seconds: int, kept: int) -> None:
        super().__init__(daemon=True)
        self.log, self.follower, self.machine, self.seconds, self.kept = log, follower, machine, seconds, kept
        self.lease: str | None = None
        self.start()

    def run(self) -> None:
        while True:
            try:
                if self.follower.number is not None:
                    self.stand(self.follower.number)
                    self.cut()
            except Unreachable:
                pass
            except Exception as fault:
                say(f"the place is not kept: {fault!r}")
            time.sleep(min(5, self.seconds / 4))

    def stand(self, number: int) -> None:
        if self.lease is None or not self.log.keep(self.lease):
            self.lease = self.log.lease(self.seconds)
        self.log.stand(self.machine, number, self.lease)

    def cut(self) -> None:
        last = self.log.least() - self.kept
        for _ in range(50):
            if last <= 0 or self.log.cut(last) < 100:
                break

class Follower:
    def __init__(self, told: argparse.Namespace) -> None:
        self.told, self.rest, self.arcs, self.waiting = told, 0.1, 0, Waiting()
        self.number: int | None = None
        self.log = Log(told.urls, told.name)
        pairs = subprocess.run([EXAMPLES / "pairs.sh", told.folder, str(told.pairs)], check=True, capture_output=True, text=True).stdout.split()
        options = (("--workers", told.workers), ("--delta", told.delta), ("--copies", told.copies))
        self.words = pairs + [word for option, value in options if value for word in (option, value)]

    def run(self) -> None:
        Place(Log(self.told.urls, self.told.name), self, self.told.machine, self.told.lease, self.told.keep)
        while True:
            server = Server(self.told.store, self.words, self.told.program)
            try:
                self.follow(server)
            except (Lost, Fault, OSError) as why:
                say(f"the server is started again: {why}")
            finally:
                server.session.close()
            time.sleep(self.rest)
            self.rest = min(2 * self.rest, 5)

    def follow(self, server: Server) -> None:
        """Carries out entries from where the store stands, until the server can't."""
        server.settle()
        begin = self.steadily(server, self.log.begin)
        version, self.number = self.stand(server, begin)
        say(f"at entry {self.number}, version {version}")
        tail = Tail(Log(self.told.urls, self.told.name), self.number + 1, self.waiting)
        try:
            while True:
                entry = tail.next(0.5)
                if entry is None:
                    server.look(server.session.state())
                else:
                    self.carry_out(server, begin, entry)
        finally:
            tail.is_let_go = True

    def stand(self, server: Server, begin: Begin) -> tuple[int, int]:
        """The version and the entry that the store has, which is held against the log: what stays for the life of a file, and what is known of the entry."""
        room = server.number("room")
        if (room, server.nodes) != (begin.room, begin.nodes):
            raise Astray(f"the store has room for {room} arcs and {server.nodes} nodes, and the log {self.told.name} was begun with room for {begin.room} arcs and {begin.nodes} nodes: "
                         "such a store would refuse what the others accept, so this machine begins with a copy of another one's store")
        version, mark = server.mark(begin.arc)
        number = begin.entry + version - begin.version
        if number < begin.entry or number % LENGTHS != mark:
            raise Astray(f"at version {version} the store should have entry {number}, and arc {begin.arc} has {mark}: it is no copy of the others, or somebody else wrote to it")
        if number == begin.entry:
            self.begins_alike(server.counts(), (begin.arcs, begin.landmarks, begin.closed))
        self.arcs = server.number("arcs")
        self.agree(number, self.steadily(server, lambda: self.log.count(number, self.arcs, False)))
        return version, number

    def begins_alike(self, counts: tuple[int, int, int], first: tuple[int, int, int]) -> None:
        if counts != first:
            raise Astray("the store has {} arcs, {} landmarks and {} closed arcs where the log begins, and the log has {}, {} and {}: it is no copy of the others".format(*counts, *first))

    def agree(self, number: int, other: str) -> None:
        if other:
            raise Astray(f"this machine has {self.arcs} arcs behind entry {number}, which {other}: their stores differ")

    def carry_out(self, server: Server, begin: Begin, entry: Entry) -> None:
        """One version for each entry, on each machine the same: its commands and its number, or its number alone where it is refused."""
        code = fault_of(entry.commands) or 0
        if not code:
            version, code = self.group(server, begin, entry)
        if code:
            # Told in the log before the store goes past it, so who sees its version finds the code.
            self.agree(entry.number, self.steadily(server, lambda: self.log.refuse(entry.number, code)))
            version = server.carry_out([], begin.arc, entry.number)
        if version != begin.version + entry.number - begin.entry:
            raise Astray(f"entry {entry.number} is version {version}, and should be {begin.version + entry.number - begin.entry}: somebody else wrote to the store")
        lays = 0 if code else sum(command.startswith("lay ") for command in entry.commands)
        if lays:
            self.arcs += lays
            self.agree(entry.number, self.steadily(server, lambda: self.log.count(entry.number, self.arcs, True)))
        self.number, self.rest = entry.number, 0.1

    def group(self, server: Server, begin: Begin, entry: Entry) -> tuple[int, int]:
        """The version that the entry's group is, or the code by which it is refused."""
        try:
            return server.carry_out(entry.commands, begin.arc, entry.number), 0
        except Refused as refused:
            if refused.code not in OWN:
                raise Lost(f"entry {entry.number} had no {refused.code} {refused.name}") from None
            return 0, refused.code

    def steadily(self, server: Server, call: Callable[[], Result]) -> Result:
        """What the log answers, whenever it does. Readers have a server meanwhile."""
        while True:
            try:
                return call()
            except Unreachable as why:
                self.waiting.tell(why)
                server.look(server.session.state())
                time.sleep(0.2)

def begin(told: argparse.Namespace) -> None:
    """Makes the log, behind what the store has."""
    server = Server(told.store, [], told.program)
    try:
        server.settle()
        version, number = server.mark(told.begin)
        new = Begin(version, number, told.begin, server.number("room"), server.nodes, *server.counts())
    except Astray as why:
        raise SystemExit(f"follow: {told.store}: {why}") from None
    finally:
        server.session.close()
    log, end = Log(told.urls, told.name), time.monotonic() + 30
    while True:
        try:
            # Where an attempt of which no answer came made it, it is this one's.
            if not log.make(new) and log.begin() != new:
                raise SystemExit(f"follow: there is a log {told.name} already, and it begins elsewhere: {log.begin()}")
            break
        except Unreachable:
            if time.monotonic() > end:
                raise
            time.sleep(0.2)
    print(f"log {told.name}: version {new.version} has entry {new.entry}, arc {new.arc} keeps the number")

def words() -> argparse.Namespace:
    parser = argparse.ArgumentParser(prog="follow.py", description="Carries the log of changes out on this machine's store.")
    parser.add_argument("--program", default=str(HERE.parents[2] / "roadmark"), help="roadmark, the one beside the examples where none is named")
    parser.add_argument("--pairs", type=int, default=16, help="so many pairs of pipes, 16")
    parser.add_argument("--workers", help="of the server")
    parser.add_argument("--delta", help="of the server")
    parser.add_argument("--copies", help="of the server")
    parser.add_argument("--machine", type=word, default=socket.gethostname(), help="this machine's name in the log, the host's")
    parser.add_argument("--lease", type=int, default=86400, help="for so many seconds entries are kept for a machine that is away, a day")
    parser.add_argument("--keep", type=int, default=100000, help="so many entries are kept that all machines have, 100,000")
    parser.add_argument("--begin", type=int, metavar="K", help="makes the log, whose numbers arc K keeps")
    parser.add_argument("urls", type=lambda text: text.split(","))
    parser.add_argument("name", type=word)
    parser.add_argument("store")
    parser.add_argument("folder", nargs="?")
    told = parser.parse_args()
    if (told.begin is None) == (told.folder is None):
        parser.error("either --begin or a folder for the pipes")
    return told

def main() -> int:
    told = words()
    # So the server is let go before this ends.
    signal.signal(signal.SIGTERM, lambda *_: sys.exit(0))
    try:
        if told.begin is not None:
            begin(told)
        else:
            Follower(told).run()
        return 0
    except (NoLog, Astray) as why:
        say(str(why))
        return 3
    except (Unreachable, Fault, OSError) as why:
        say(str(why))
        return 1

if __name__ == "__main__":
    sys.exit(main())
