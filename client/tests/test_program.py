"""The calls of a session with the program itself: what they give is what docs/MANUAL.md has for the network of six nodes."""
from __future__ import annotations

import functools
import os
import pathlib
import shutil
import subprocess
import tempfile
import threading
import unittest
from collections.abc import Iterator
from contextlib import contextmanager

from roadmark import Arc, Late, Lost, Refused, Session

PROGRAM = os.environ.get("ROADMARK", "")
# A machine that has much else to do may stand still for a while.
PATIENCE = 300.0
EXAMPLES = pathlib.Path(__file__).resolve().parents[2] / "examples"

@functools.cache
def six() -> bytes:
    """A store of the network of six nodes."""
    with tempfile.TemporaryDirectory() as folder:
        store = pathlib.Path(folder) / "six.store"
        subprocess.run([PROGRAM, "create", store, EXAMPLES / "six.gr", EXAMPLES / "six.ss", "--room", "10"], check=True, stdout=subprocess.DEVNULL)
        return store.read_bytes()

@unittest.skipUnless(PROGRAM, "the program")
class Program(unittest.TestCase):
    def setUp(self) -> None:
        folder = tempfile.TemporaryDirectory()
        self.addCleanup(folder.cleanup)
        self.folder = pathlib.Path(folder.name)
        self.store = self.folder / "six.store"
        self.store.write_bytes(six())

    def start(self, *words: str | os.PathLike[str]) -> Session:
        session = Session.start([PROGRAM, "serve", self.store, *words], PATIENCE)
        self.addCleanup(session.close)
        return session

    def lease(self, folder: pathlib.Path) -> Session:
        return Session.lease(folder, PATIENCE, PATIENCE)

    def refused(self, session: Session, line: str, code: int) -> None:
        with self.assertRaises(Refused) as refused:
            session.ask(line)
        self.assertEqual(refused.exception.code, code)

    def pipes(self, folder: pathlib.Path, count: int) -> list[str]:
        return subprocess.run([EXAMPLES / "pairs.sh", folder, str(count)], capture_output=True, text=True, check=True).stdout.split()

    @contextmanager
    def pairs(self, count: int, *options: str, asking: int = 0) -> Iterator[tuple[pathlib.Path, subprocess.Popen[bytes]]]:
        """A server at so many pairs of pipes, and the folder that has them; more pairs, at which clients ask alone, are in the folder beside it."""
        folder = self.folder / "pairs"
        names = self.pipes(folder, count) + (["--asking", *self.pipes(self.folder / "asking", asking)] if asking else [])
        with subprocess.Popen([PROGRAM, "serve", self.store, *names, *options], stdin=subprocess.PIPE, stdout=subprocess.PIPE, stderr=subprocess.DEVNULL) as server:
            try:
                yield folder, server
            finally:
                server.kill()

    def test_queries(self) -> None:
        session = self.start()
        self.assertEqual(session.distance(1, 6), (0, 15))
        self.assertEqual(session.distance(6, 1), (0, None))
        self.assertEqual(session.distance_from(3, 6), (0, 5))
        self.assertEqual(session.lower(5, 6), (0, 5))
        self.assertEqual(session.table([1], [6, 4]), (0, [[15, 12]]))
        self.assertEqual(session.reach(1, 10), (0, {1: 0, 2: 10, 3: 10, 5: 10}))
        self.assertEqual(session.reached(4, 2), (0, {2: 2, 3: 2, 4: 0, 5: 2}))
        self.assertEqual(session.nearest(1, 1), (0, [(3, 10)]))
        self.assertEqual(session.route(5, 4), (0, 2, [Arc(7, 5, 2, 0, True), Arc(3, 2, 4, 2, True)]))
        self.assertEqual(session.route(3, 3), (0, 0, []))
        self.assertEqual(session.route(6, 1), (0, None, []))
        self.assertEqual(list(session.stream("table 1 2 1 6 4")), ["v 0", "d 1 6 15", "d 1 4 12"])
        self.refused(session, "dist 1 9", 24)
        self.refused(session, "route 1 9", 24)
        self.refused(session, "from 1 6", 26)
        self.assertEqual(session.close(), 0)

    def test_looks(self) -> None:
        session = self.start()
        self.assertEqual(session.arc(7), (0, Arc(7, 5, 2, 0, True)))
        self.assertEqual(session.change("close 7"), 1)
        self.assertEqual(session.until(1), 1)
        self.assertEqual(session.arc(7), (1, Arc(7, 5, 2, 0, False)))
        self.assertEqual(session.arcs(5, 2), (1, [7]))
        self.assertEqual(session.landmarks(), (1, [3, 6]))
        self.assertEqual(session.closed(), (1, [7]))
        self.refused(session, "arc 9", 20)
        state = session.state()
        self.assertEqual([state[word] for word in ("shown", "durable", "accepted", "pending", "pages", "landmarks", "flusher", "builder")], ["1", "1", "1", "0", "64", "2", "on", "on"])
        self.assertEqual([state[word] for word in ("arcs", "room", "clients", "pairs", "waiting")], ["8", "10", "0", "0", "0"])
        self.assertGreaterEqual(int(state["uptime"]), 0)

    def test_changes(self) -> None:
        session = self.start()
        self.assertEqual([session.change(line) for line in ("close 7", "mark 1", "unmark 1", "lay 6 1 7", "set 9 3")], [1, 2, 3, 4, 5])
        self.assertEqual(session.wait(), 5)
        self.assertEqual(session.distance(6, 1), (5, 3))
        self.assertEqual(session.group(["reopen 7", "set 8 4"]), 6)
        for line, code in (("reopen 7", 23), ("set 99 1", 20), ("set 1 -5", 5), ("set 1 2147483648", 21), ("close x", 1), ("hello", 1)):
            self.refused(session, line, code)
        self.assertRaises(Refused, session.group, ["close 7", "close 7"])
        self.assertRaises(Refused, session.group, [])
        self.assertRaises(Refused, session.group, ["set 1 1"] * 254)
        self.assertEqual(session.wait(), 6)

    def test_what_is_supposed(self) -> None:
        session = self.start()
        self.assertEqual(session.suppose(["close 7"]), 0)
        self.assertEqual(session.distance(1, 6), (0, 22))
        self.assertEqual(session.distance_from(3, 4), (0, None))
        self.assertTrue(session.ask("table 1 2 1 6 4").is_supposed)
        self.refused(session, "lower 1 6", 1)
        session.forget()
        self.assertEqual(session.distance(1, 6), (0, 15))
        self.refused(session, "forget", 1)

    def test_copies(self) -> None:
        copies = self.folder / "copies"
        copies.mkdir()
        session = self.start("--copies", copies)
        self.assertEqual(session.copy("monday"), 0)
        self.refused(session, "copy monday", 46)
        self.refused(session, "copy a.b", 1)
        self.assertEqual(session.close(), 0)
        self.assertEqual(subprocess.run([PROGRAM, "check", copies / "monday"], capture_output=True, text=True).stdout.split("\n")[0], "v 0")

    def test_a_store_that_is_in_use(self) -> None:
        session = self.start()
        session.wait()
        other = Session.start([PROGRAM, "serve", self.store], errors=subprocess.DEVNULL)
        self.assertRaises(Lost, other.wait)
        self.assertEqual(other.close(), 1)

    def test_a_version_that_does_not_come(self) -> None:
        session = self.start("--patience", "1")
        self.refused(session, "until 99", 54)
        self.assertEqual([session.change("close 7"), session.until(1), session.distance(1, 6)], [1, 1, (1, 22)])

    def test_a_pair_whose_client_waits_for_a_version_and_has_gone(self) -> None:
        with self.pairs(1, "--patience", "1") as (folder, _):
            with self.lease(folder) as session:
                self.assertRaises(Late, session.until, 99, seconds=0)
            with self.lease(folder) as session:
                self.assertEqual(session.distance(1, 6), (0, 15))

    def test_clients_that_ask_alone(self) -> None:
        with self.pairs(1, asking=1) as (folder, _), self.lease(folder) as session, self.lease(self.folder / "asking") as asking:
            for line in ("close 7", "set 1 9", "mark 1"):
                self.refused(asking, line, 64)
            self.refused(asking, "close x", 1)
            self.refused(asking, "copy monday", 1)
            with self.assertRaises(Refused) as refused:
                asking.group(["close 7", "set 8 4"])
            self.assertEqual(refused.exception.code, 64)
            self.assertEqual([asking.distance(1, 6), asking.suppose(["close 7"]), asking.distance(1, 6)], [(0, 15), 0, (0, 22)])
            self.assertEqual([session.change("close 8"), asking.until(1), asking.closed()], [1, 1, (1, [8])])
            self.assertEqual([session.state()[word] for word in ("clients", "pairs")], ["2", "2"])

    def test_leases(self) -> None:
        with self.pairs(3) as (folder, server):
            with self.lease(folder) as one, self.lease(folder) as other:
                self.assertEqual(one.change("close 7"), 1)
                self.assertEqual(other.until(1), 1)
                self.assertEqual(other.distance(1, 6), (1, 22))
                # attach.sh takes the third, by the same locks.
                told = subprocess.run([EXAMPLES / "attach.sh", folder], input=b"dist 1 6\n", stdout=subprocess.PIPE, timeout=PATIENCE).stdout
                self.assertEqual(told, b"v 1\nd 1 6 22\n")
                attached = subprocess.Popen([EXAMPLES / "attach.sh", folder], stdin=subprocess.PIPE, stdout=subprocess.PIPE)
                assert attached.stdin and attached.stdout
                attached.stdin.write(b"wait\n")
                attached.stdin.flush()
                self.assertEqual(attached.stdout.readline(), b"v 1\n")
                self.assertRaises(Late, Session.lease, folder, seconds=0.3)
                attached.communicate(timeout=PATIENCE)
            server.kill()
            server.wait()

    def test_a_server_that_is_killed_and_started_again(self) -> None:
        with self.pairs(1) as (folder, server):
            session = self.lease(folder)
            self.assertEqual(session.change("close 7"), 1)
            server.kill()
            server.wait()
            self.assertRaises(Lost, session.wait)
            session.close()
        with self.pairs(1) as (folder, server), self.lease(folder) as session:
            self.assertEqual(session.distance(1, 6), (1, 22))

    def test_many_leases_at_once(self) -> None:
        told: list[int] = []
        with self.pairs(2) as (folder, _):
            def lease() -> None:
                for _ in range(5):
                    with self.lease(folder) as session:
                        number = session.change("set 1 9")
                        if session.wait() >= number:
                            told.append(number)
            threads = [threading.Thread(target=lease) for _ in range(5)]
            for thread in threads:
                thread.start()
            for thread in threads:
                thread.join()
        self.assertEqual(sorted(told), list(range(1, 26)))

@unittest.skipUnless(PROGRAM, "the program")
class Examples(unittest.TestCase):
    """The two examples print what the manual has, and end with a plain word where there is nothing to talk to."""

    def setUp(self) -> None:
        folder = tempfile.TemporaryDirectory()
        self.addCleanup(folder.cleanup)
        self.folder = pathlib.Path(folder.name)
        shutil.copytree(EXAMPLES, self.folder / "examples")
        shutil.copytree(EXAMPLES.parent / "client", self.folder / "client")
        (self.folder / "roadmark").symlink_to(PROGRAM)

    def run_it(self, *words: str) -> subprocess.CompletedProcess[str]:
        return subprocess.run(words, cwd=self.folder, capture_output=True, text=True, timeout=PATIENCE)

    def test_client(self) -> None:
        self.run_it("./roadmark", "create", "python.store", "examples/six.gr", "examples/six.ss")
        self.assertEqual(self.run_it("examples/client.py", "python.store").stdout, "from 1 to 6 (version, length): (0, 15)\nclose 7: durable as version 1\nclose 7: refused, code 22\n"
                         "shown: version 1\nfrom 1 to 6 (version, length): (1, 22)\nreopen 7: durable as version 2\n")

    def test_no_server(self) -> None:
        for words in (("examples/client.py", "none.store"), ("examples/clients.py", "none.sock")):
            ended = self.run_it(*words)
            self.assertEqual((ended.returncode, ended.stdout), (1, ""))
            self.assertNotIn("Traceback", ended.stderr)
