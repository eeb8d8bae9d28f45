"""Clients at named pipes, and how long a store is locked, by the program itself: docs/MANUAL.md has the lines and answers, docs/SERVER.md what a server does at its end."""
from __future__ import annotations

import fcntl
import os
import pathlib
import select
import subprocess
import tempfile
import time
import unittest
from collections.abc import Callable, Iterator
from contextlib import contextmanager
from typing import BinaryIO

PROGRAM = os.environ.get("ROADMARK", "")
# A machine that has much else to do may stand still for a while.
PATIENCE = 300.0
EXAMPLES = pathlib.Path(__file__).resolve().parents[2] / "examples"
# A ring has so many nodes, and so many arcs from each node to the next. A group has a command for each node, so groups are made durable one by one; once each node is a landmark, a view takes a
# search for each. Larger rings are tried until both take long enough with the program and the machine at hand.
NODES, ARCS, GROUPS, LONG_ENOUGH = 253, (10, 100, 1000, 6000, 12000), 8, 0.5

def soon(look: Callable[[], bool], what: str) -> None:
    """Looks until it is so."""
    until = time.monotonic() + PATIENCE
    while not look():
        assert time.monotonic() < until, f"not within {PATIENCE} seconds: {what}"
        time.sleep(0.0005)

def is_free(store: BinaryIO) -> bool:
    """Whether nobody has the store to itself. Then it is shared from now on."""
    try:
        fcntl.flock(store, fcntl.LOCK_SH | fcntl.LOCK_NB)
        return True
    except BlockingIOError:
        return False

class Client:
    """A client at a pair of pipes. It opens both without a wait for the server, the one for its lines to read too, as Linux lets it."""

    def __init__(self, test: unittest.TestCase, lines: pathlib.Path, answers: pathlib.Path) -> None:
        self.test = test
        self.lines = lines.open("r+b", buffering=0)
        self.answers = os.fdopen(os.open(answers, os.O_RDONLY | os.O_NONBLOCK), "rb", buffering=0)
        test.addCleanup(self.close)

    def close(self) -> None:
        """What it has not read is gone then."""
        self.lines.close()
        self.answers.close()

    def is_answered(self, seconds: float) -> bool:
        """Whether something may be read within this time, be it the end of all answers."""
        return bool(select.select([self.answers], [], [], seconds)[0])

    def hears(self, want: bytes) -> None:
        """These are the next answers."""
        got = b""
        while len(got) < len(want) and self.is_answered(PATIENCE) and (more := self.answers.read(len(want) - len(got))):
            got += more
        self.test.assertEqual(got, want)

    def hears_last(self, want: bytes) -> None:
        """These are the next answers. Then it leaves, and nothing more comes: the server has closed both pipes."""
        self.hears(want)
        self.lines.close()
        self.test.assertTrue(self.is_answered(PATIENCE) and self.answers.read(1) == b"", f"nothing comes behind {want!r}")

@unittest.skipUnless(PROGRAM, "the program")
class Serving(unittest.TestCase):
    def setUp(self) -> None:
        folder = tempfile.TemporaryDirectory()
        self.addCleanup(folder.cleanup)
        self.folder = pathlib.Path(folder.name)
        self.store, self.errors = self.folder / "a.store", self.folder / "errors"

    def run_program(self, *words: str | os.PathLike[str]) -> str:
        return subprocess.run([PROGRAM, *words], capture_output=True, text=True, check=True, timeout=PATIENCE).stdout

    def create_six(self) -> None:
        self.run_program("create", self.store, EXAMPLES / "six.gr", EXAMPLES / "six.ss")

    def pair(self, name: str) -> tuple[pathlib.Path, pathlib.Path]:
        """A new pair of named pipes."""
        pair = self.folder / f"{name}.in", self.folder / f"{name}.out"
        for pipe in pair:
            os.mkfifo(pipe)
        return pair

    @contextmanager
    def served(self, *words: str | os.PathLike[str]) -> Iterator[subprocess.Popen[bytes]]:
        with self.errors.open("wb") as errors, subprocess.Popen([PROGRAM, "serve", self.store, *words], stdin=subprocess.PIPE, stdout=subprocess.PIPE, stderr=errors) as server:
            try:
                yield server
            finally:
                server.kill()

    def has_version(self, version: int) -> None:
        self.assertEqual(self.run_program("check", self.store).split("\n")[0], f"v {version}")

    def ends(self, server: subprocess.Popen[bytes], lines: bytes, answers: bytes, version: int) -> None:
        """The session on standard input has these lines and answers, and ends well; then the store has this version."""
        self.assertEqual((server.communicate(lines, PATIENCE)[0], server.returncode), (answers, 0))
        self.has_version(version)

    def test_clients_at_pipes(self) -> None:
        """Two clients are served beside the session on standard input: what one changes the others see. A line that the end of a pipe cuts off is not carried out, also where it would end a group;
        on standard input it is. Refused is a body that serves no pair, or the first one alone, and one that carries out such a line at a pipe."""
        self.create_six()
        pairs = self.pair("first"), self.pair("second")
        with self.served(*pairs[0], *pairs[1]) as server:
            first, second = Client(self, *pairs[0]), Client(self, *pairs[1])
            second.lines.write(b"hello\nclose 9\n")
            second.hears(b"no 1\nno 20\n")
            first.lines.write(b"close 7\nwait\ndist 1 6\nset 1 9")
            first.hears_last(b"ok 1\nv 1\nv 1\nd 1 6 22\n")
            second.lines.write(b"until 1\ndist 1 6\nbegin\nset 3 1\nend")
            second.hears_last(b"v 1\nv 1\nd 1 6 22\n")
            self.ends(server, b"dist 1 6\nset 8 4", b"v 1\nd 1 6 22\nok 2\n", version=2)
        self.assertEqual(self.errors.read_text(), "")

    def test_clients_that_ask_alone(self) -> None:
        """At the pairs behind `--asking` nothing is changed and no copy is made, while both are done at the pair before them. Refused is a body to which all pairs are the same."""
        self.create_six()
        copies = self.folder / "copies"
        copies.mkdir()
        changing, asking, another = self.pair("changing"), self.pair("asking"), self.pair("another")
        with self.served("--copies", copies, *changing, "--asking", *asking, *another) as server:
            for pair in asking, another:
                client = Client(self, *pair)
                client.lines.write(b"set 3 1\nbegin\nset 3 1\nend\ncopy a\ndist 1 6\n")
                client.hears_last(b"no 64\nno 64\nno 1\nv 0\nd 1 6 15\n")
            client = Client(self, *changing)
            client.lines.write(b"close 7\nbegin\nset 8 4\nend\nwait\ncopy b\n")
            client.hears_last(b"ok 1\nok 2\nv 2\ncopied 2\n")
            self.ends(server, b"dist 1 6\n", b"v 2\nd 1 6 14\n", version=2)
        self.assertEqual(os.listdir(copies), ["b"])

    def is_served_once(self, replaced: int) -> None:
        """Once a client was answered, the name of one pipe of its pair is that of another file, which is neither read nor written then."""
        self.create_six()
        pipes, links, file = self.pair("a"), (self.folder / "in", self.folder / "out"), self.folder / "file"
        for link, pipe in zip(links, pipes):
            link.symlink_to(pipe)
        file.write_bytes(b"set 1 77\n")
        with self.served(*links) as server:
            client = Client(self, *pipes)
            client.lines.write(b"close 7\n")
            client.hears(b"ok 1\n")
            links[replaced].unlink()
            links[replaced].symlink_to(file)
            # The session is over then. The client's end for answers stays open, so nothing else holds up a server that takes the file for a pipe.
            client.hears_last(b"")
            if replaced == 1:
                Client(self, *pipes).lines.write(b"set 1 5\n")
            soon(lambda: b"it is no named pipe" in self.errors.read_bytes(), "the file is told to be no pipe")
            self.ends(server, b"until 1\ndist 1 6\n", b"v 1\nv 1\nd 1 6 22\n", version=1)
        name = links[replaced]
        self.assertEqual(self.errors.read_text(), f"roadmark: {name}: 10 Read\nroadmark: {name}: it is no named pipe\n")
        self.assertEqual(file.read_bytes(), b"set 1 77\n")

    def test_an_input_that_was_replaced(self) -> None:
        """Refused is a body that asks the names alone, at the start, whether they are pipes, and one that asks the opened output alone."""
        self.is_served_once(0)

    def test_an_output_that_was_replaced(self) -> None:
        """Refused is a body that asks the names alone, at the start, whether they are pipes, and one that asks the opened input alone."""
        self.is_served_once(1)

    def test_the_lock_of_a_session(self) -> None:
        """The store is locked until nothing more is written, and the lock is let go before the last view is built. The journal has one page, so a checkpoint follows each flush. Refused is a body
        that never lets the lock go, one that does so behind the desk's close, and one that does so before all is written."""
        pairs, network, landmarks = [self.pair(str(number)) for number in range(GROUPS + 1)], self.folder / "ring.gr", self.folder / "none.ss"
        landmarks.write_text("p aux sp ss 0\n")
        for arcs in ARCS:
            network.write_text(f"p sp {NODES} {NODES * arcs}\n" + "".join(f"a {node} {node % NODES + 1} 9\n" * arcs for node in range(1, NODES + 1)))
            self.store.unlink(missing_ok=True)
            self.run_program("create", self.store, network, landmarks, "--journal", "1")
            if self.is_let_go_first(pairs):
                return
        self.fail("the lock is not let go before the last view is shown")

    def is_let_go_first(self, pairs: list[tuple[pathlib.Path, pathlib.Path]]) -> bool:
        """Whether the server ends while groups are pending, and others can have the store, with all that was accepted, for a while before a client that waits for the last view is answered."""
        words = [pipe for pair in pairs for pipe in pair]
        with self.store.open("rb") as store, self.served(*words, "--workers", "1", "--patience", "600") as server:
            assert server.stdin and server.stdout
            put, told = server.stdin, server.stdout
            def stands(field: str) -> int:
                put.write(b"state\n")
                put.flush()
                self.assertTrue(select.select([told], [], [], PATIENCE)[0])
                fields = told.readline().decode().split()
                return int(fields[fields.index(field) + 1])
            waiting, *setting, marking = clients = [Client(self, *pair) for pair in pairs]
            waiting.lines.write(b"until %d\n" % GROUPS)
            for client in setting:
                client.lines.write(b"begin\n" + b"set 1 8\n" * NODES + b"end\n")
            soon(lambda: stands("accepted") == GROUPS - 1, "a group of each other client")
            self.assertFalse(is_free(store))
            marking.lines.write(b"begin\n" + b"".join(b"mark %d\n" % node for node in range(1, NODES + 1)) + b"end\n")
            soon(lambda: stands("accepted") == GROUPS, "the last group")
            is_pending = stands("pending") > NODES
            put.close()
            soon(lambda: is_free(store), "the lock is let go")
            written = os.fstat(store.fileno()).st_mtime_ns, self.store.read_bytes()
            is_first = is_pending and not waiting.is_answered(LONG_ENOUGH)
            self.has_version(GROUPS)
            self.assertEqual(server.wait(PATIENCE), 0)
            self.assertTrue(written == (os.fstat(store.fileno()).st_mtime_ns, self.store.read_bytes()), "something was written once the lock was let go")
            for client in clients:
                client.close()
            return is_first
