"""Sessions with a fake server, which follows a script: answers that are late, cut off, refused, or none; and leases of pairs of pipes."""
from __future__ import annotations

import fcntl
import os
import pathlib
import socket
import sys
import tempfile
import threading
import time
import unittest
from collections.abc import Callable, Iterator
from contextlib import contextmanager
from unittest import mock

import roadmark_wires
from roadmark import Arc, Fault, Garbled, Late, Lost, Refused, Session, Unknown, OVER_A_LOG
from roadmark_wires import Wire

# A step of a script: a line that must come, bytes to send, seconds to rest, or None: until the client has gone. At its end both pipes are closed.
Step = str | bytes | float | None
# A machine that has much else to do may stand still for a while.
PATIENCE = 300.0

def play(script: list[Step], lines: int, answers: int, seen: list[str]) -> None:
    with os.fdopen(lines, "rb") as source, os.fdopen(answers, "wb", buffering=0) as sink:
        try:
            for step in script:
                if isinstance(step, str):
                    seen.append(source.readline().decode().removesuffix("\n"))
                    if seen[-1] != step:
                        return
                elif isinstance(step, bytes):
                    sink.write(step)
                elif step is None:
                    source.read()
                else:
                    time.sleep(step)
        except BrokenPipeError:
            pass

@contextmanager
def served(script: list[Step], **more: object) -> Iterator[Session]:
    """A session with a fake server."""
    lines, sink = os.pipe()
    source, answers = os.pipe()
    server = threading.Thread(target=play, args=(script, lines, answers, []), daemon=True)
    server.start()
    session = Session(Wire(source, sink), PATIENCE, **more)  # type: ignore[arg-type]
    try:
        yield session
    finally:
        session.close(0)
        server.join(PATIENCE)

class Scripts(unittest.TestCase):
    def test_an_answer_in_any_pieces(self) -> None:
        answer = b"v 0\nreach 1 2\nd 1 1 0\nd 1 2 10\n"
        for pieces in ([answer], [answer[place:place + 1] for place in range(len(answer))], [answer[:5], answer[5:]], [answer + b"v 7\n"]):
            with served(["reach 1 10", *pieces]) as session:
                self.assertEqual(session.reach(1, 10), (0, {1: 0, 2: 10}))

    def test_refusals(self) -> None:
        for line, answer, code, name, version in (("close 7", b"no 22\n", 22, "AlreadyClosed", None), ("dist 1 9", b"v 3\nno 24\n", 24, "NoSuchNode", 3), ("dist 1 2", b"no 61\n", 61, "Closed", None),
                                                  ("close 7", b"no 99\n", 99, "which this module does not know", None)):
            with served([line, answer, "wait", b"v 9\n"]) as session:
                with self.assertRaises(Refused) as refused:
                    session.ask(line)
                self.assertEqual((refused.exception.code, refused.exception.name, refused.exception.version), (code, name, version))
                self.assertIn(f"{line}: no {code}", str(refused.exception))
                self.assertEqual(session.wait(), 9)

    def test_late(self) -> None:
        scripts: list[list[Step]] = [["wait", None], ["wait", b"v", None], ["reach 1 9", b"v 1\nreach 1 2\nd 1 1 0\n", None]]
        for script in scripts:
            with served(script) as session:
                with self.assertRaises(Late):
                    session.ask(str(script[0]), seconds=0.1)
                # It is over: what comes now is no answer to the next line.
                self.assertIsInstance(session.fault, Late)
                self.assertRaises(Lost, session.wait)

    def test_an_answer_that_drips_is_late_as_a_whole(self) -> None:
        drop: list[Step] = [b"d 1 1 0\n", 0.05]
        with served(["reach 1 9", b"v 1\nreach 1 99\n", *drop * 60, None]) as session:
            self.assertRaises(Late, session.ask, "reach 1 9", seconds=0.5)

    def test_a_stream_has_its_time_for_each_line(self) -> None:
        untils: list[float] = []
        line = Wire.line

        def seen(wire: Wire, until: float) -> str:
            untils.append(until)
            return line(wire, until)

        answer = b"v 1\nreach 1 3\nd 1 1 0\nd 1 2 4\nd 1 3 5\n"
        with mock.patch.object(Wire, "line", seen), served(["reach 1 9", answer, "reach 1 9", answer]) as session:
            self.assertEqual(len(session.ask("reach 1 9").lines), 5)
            self.assertEqual(len(list(session.stream("reach 1 9"))), 5)
        self.assertEqual([len(set(untils[:5])), len(set(untils[5:])), untils[5:]], [1, 5, sorted(untils[5:])])

    def test_a_connection_that_ends(self) -> None:
        scripts: list[list[Step]] = [[], ["dist 1 6"], ["dist 1 6", b"v 0"], ["dist 1 6", b"v 0\n"], ["dist 1 6", b"v 0\nd 1 6 15"], ["another line"]]
        for script in scripts:
            with served(script) as session:
                self.assertRaises(Lost, session.distance, 1, 6)
                self.assertIsInstance(session.fault, Lost)
                self.assertRaises(Lost, session.distance, 1, 6)

    def test_what_is_no_answer(self) -> None:
        for answer in (b"hello\n", b"\n", b"v 0\nd 1 7 15\n", b"ok 3\n", b"v 0\n\xff\xfe\n", b"v\x000\n", b"HTTP/1.1 400 Bad Request\n"):
            with served(["dist 1 6", answer, None]) as session:
                self.assertRaises(Garbled, session.distance, 1, 6)
                self.assertRaises(Lost, session.wait)

    def test_what_is_left_of_a_stream_is_passed_over(self) -> None:
        with served(["table 1 2 1 6 4", b"v 0\nd 1 6 15\n", 0.05, b"d 1 4 12\n", "wait", b"v 1\n"]) as session:
            stream = session.stream("table 1 2 1 6 4")
            self.assertEqual(next(stream), "v 0")
            self.assertEqual(session.wait(), 1)
            self.assertEqual(list(stream), [])

    def test_a_stream_has_refusals_too(self) -> None:
        with served(["dist 1 9", b"v 3\nno 24\n", "hello", b"no 1\n", "# nothing"]) as session:
            self.assertEqual(list(session.stream("dist 1 9")), ["v 3", "no 24"])
            self.assertEqual(list(session.stream("hello")), ["no 1"])
            self.assertEqual(list(session.stream("# nothing")), [])

    def test_groups_are_told_whole(self) -> None:
        with served(["begin", "close 7", "set 8 4", "end", b"ok 1\n", "suppose", "reopen 7", "end", b"suppose 1\n", "dist 1 6", b"s 1\nd 1 6 14\n", "forget", b"forgotten\n"]) as session:
            self.assertEqual(session.group(["close 7", "set 8 4"]), 1)
            self.assertEqual(session.suppose(["reopen 7"]), 1)
            self.assertTrue(session.ask("dist 1 6").is_supposed)
            session.forget()

    def test_no_line_is_told_by_a_field(self) -> None:
        with served(["wait", b"v 1\n"]) as session:
            self.assertRaises(ValueError, session.change, "close 7\nclose 8")
            self.assertRaises(ValueError, session.copy, "a\nquit")
            self.assertRaises(ValueError, session.group, ["close 7", "end", "close 8"])
            self.assertRaises(ValueError, session.ask, "wait", "wait")
            self.assertEqual(session.wait(), 1)

    def test_both_sides_send_at_once(self) -> None:
        numbers = " ".join(["7"] * 100000)
        line, answer = f"table 1 100000 1 {numbers}", b"".join(b"d 1 7 5\n" for _ in range(100000))
        with served([b"v 0\n" + answer, line]) as session:
            version, [row] = session.table([1], [7] * 100000)
            self.assertEqual((version, set(row), len(row)), (0, {5}, 100000))

    def test_over_a_log(self) -> None:
        with served(["id day-1", "close 7", b"unknown day-1\n", "id day-1", "close 7", b"ok 5\n"], answers=OVER_A_LOG) as session:
            with self.assertRaises(Unknown) as unknown:
                session.change("close 7", "day-1")
            self.assertEqual(unknown.exception.identity, "day-1")
            self.assertEqual(session.change("close 7", "day-1"), 5)

    def test_lengths(self) -> None:
        with served(["dist 1 6", b"v 0\nd 1 6 18446744073709551614\n", "dist 6 1", b"v 0\nx 6 1\n", "table 2 1 1 6 4", b"v 0\nd 1 4 12\nx 6 4\n", "nearest 1 2", b"v 0\nnearest 1 1\nd 1 3 10\n",
                     "route 5 2", b"v 0\nroute 5 2 0 1\na 7 5 2 0 open\n", "route 6 1", b"v 0\nx 6 1\n"]) as session:
            self.assertEqual(session.distance(1, 6), (0, (1 << 64) - 2))
            self.assertEqual(session.distance(6, 1), (0, None))
            self.assertEqual(session.table([1, 6], [4]), (0, [[12], [None]]))
            self.assertEqual(session.nearest(1, 2), (0, [(3, 10)]))
            self.assertEqual(session.route(5, 2), (0, 0, [Arc(7, 5, 2, 0, True)]))
            self.assertEqual(session.route(6, 1), (0, None, []))

class Ways(unittest.TestCase):
    def setUp(self) -> None:
        folder = tempfile.TemporaryDirectory()
        self.addCleanup(folder.cleanup)
        self.folder = pathlib.Path(folder.name)

    def test_a_process(self) -> None:
        server = "import sys\nfor line in sys.stdin:\n    print('v 3', flush=True)\nsys.exit(7)"
        session = Session.start([sys.executable, "-c", server], PATIENCE)
        self.assertEqual(session.wait(), 3)
        self.assertEqual(session.close(), 7)
        self.assertEqual(session.close(), 7)
        self.assertRaises(Lost, session.wait)

    def test_a_process_that_does_not_end_is_killed(self) -> None:
        session = Session.start([sys.executable, "-c", "import time\ntime.sleep(60)"])
        self.assertEqual(session.close(0.3), -9)

    def test_no_way(self) -> None:
        for call in (lambda: Session.start([self.folder / "none"]), lambda: Session.connect(self.folder / "none"), lambda: Session.connect(("127.0.0.1", 1)), lambda: Session.lease(self.folder)):
            self.assertRaises(Lost, call)

    def connect(self, door: socket.socket) -> None:
        """A session over a socket at which a fake server listens."""
        def serve() -> None:
            with door.accept()[0] as client, client.makefile("rw") as lines:
                for _ in lines:
                    lines.write("v 4\n")
                    lines.flush()

        door.listen()
        server = threading.Thread(target=serve)
        server.start()
        with Session.connect(door.getsockname(), PATIENCE) as session:
            self.assertEqual(session.wait(), 4)
        server.join(PATIENCE)
        self.assertFalse(server.is_alive())

    def test_a_local_socket(self) -> None:
        with socket.socket(socket.AF_UNIX) as door:
            door.bind(str(self.folder / "socket"))
            self.connect(door)

    @unittest.skipIf("NO_LOOPBACK" in os.environ, "the address 127.0.0.1")
    def test_tcp(self) -> None:
        with socket.socket(socket.AF_INET) as door:
            door.bind(("127.0.0.1", 0))
            self.connect(door)

class Pairs(unittest.TestCase):
    """A fake server at pairs of named pipes: each session is one of its threads, which answers each line by `v N`, N the count of sessions that had a line."""

    def setUp(self) -> None:
        folder = tempfile.TemporaryDirectory()
        self.addCleanup(folder.cleanup)
        self.folder, self.sessions, self.is_over = pathlib.Path(folder.name), 0, False
        self.passed_over_after(PATIENCE)
        self.threads: list[threading.Thread] = []
        self.addCleanup(self.end)

    def passed_over_after(self, seconds: float) -> None:
        patch = mock.patch.object(roadmark_wires, "PAIR_PATIENCE", seconds)
        patch.start()
        self.addCleanup(patch.stop)

    def end(self) -> None:
        self.is_over = True
        for thread in self.threads:
            while thread.is_alive():
                # Who waits for a client has one.
                for path in self.folder.glob("*.in"):
                    try:
                        os.close(os.open(path, os.O_WRONLY | os.O_NONBLOCK))
                    except OSError:
                        pass
                thread.join(0.05)

    def pair(self, number: int) -> str:
        name = str(self.folder / str(number))
        for end in ("in", "out"):
            os.mkfifo(f"{name}.{end}")
        return name

    def serve(self, number: int, deaf: Callable[[], bool] = lambda: False) -> None:
        name = self.pair(number)

        def door() -> None:
            while not self.is_over:
                with open(f"{name}.in", "rb") as source:
                    if self.is_over:
                        return
                    with open(f"{name}.out", "wb", buffering=0) as sink:
                        while deaf() and not self.is_over:
                            time.sleep(0.02)
                        for count, _ in enumerate(source):
                            self.sessions += count == 0
                            try:
                                sink.write(f"v {self.sessions}\n".encode())
                            except BrokenPipeError:
                                break
                        # As the server does: who sees the end of the answers finds no one at the other pipe who goes.
                        source.close()
        self.threads.append(threading.Thread(target=door))
        self.threads[-1].start()

    def lease(self) -> Session:
        return Session.lease(self.folder, PATIENCE, PATIENCE)

    def test_each_lease_is_a_session_of_its_own(self) -> None:
        self.serve(1)
        for count in (1, 2, 3):
            with self.lease() as session:
                self.assertEqual([session.wait(), session.wait()], [count, count])

    def test_what_one_before_left_is_thrown_away(self) -> None:
        name = self.folder / "1"
        self.serve(1)
        with open(f"{name}.in", "wb", buffering=0) as sink, open(f"{name}.out", "rb"):
            sink.write(b"wait\nwait\nset 1")
        with self.lease() as session:
            self.assertEqual(session.wait(), 2)

    def test_lines_at_which_the_server_is_back_early_are_thrown_away(self) -> None:
        """They are in the pipe once the session of no line is over, as where that client was still there when the server opened the pipe again."""
        real, calls = roadmark_wires.opened, 0

        def opened(name: str, until: float) -> tuple[int, int, bool]:
            nonlocal calls
            calls += 1
            if calls == 2:
                with open(f"{name}.in", "wb", buffering=0) as sink:
                    sink.write(b"wait\n")
            return real(name, until)
        self.serve(1)
        with mock.patch.object(roadmark_wires, "opened", opened):
            session = self.lease()
        self.assertEqual((session.wait(), calls), (2, 3))
        session.close()

    def test_a_lease_is_a_lock_of_the_pair(self) -> None:
        self.serve(1)
        self.serve(2)
        with self.lease() as session:
            with open(self.folder / "1.lock") as lock:
                self.assertRaises(BlockingIOError, fcntl.flock, lock, fcntl.LOCK_EX | fcntl.LOCK_NB)
            with self.lease() as other:
                self.assertEqual([session.wait(), other.wait()], [1, 2])
                self.assertRaises(Late, Session.lease, self.folder, seconds=0.1)
            self.lease().close()
        with open(self.folder / "1.lock") as lock:
            fcntl.flock(lock, fcntl.LOCK_EX | fcntl.LOCK_NB)

    def test_a_turn_is_waited_for(self) -> None:
        self.serve(1)
        with open(self.folder / "turn.lock", "w") as turn:
            fcntl.flock(turn, fcntl.LOCK_EX)
            self.assertRaises(Late, Session.lease, self.folder, seconds=0.1)
            threading.Timer(0.2, lambda: fcntl.flock(turn, fcntl.LOCK_UN)).start()
            self.lease().close()

    def test_a_pair_that_does_not_answer_is_passed_over(self) -> None:
        is_deaf = threading.Event()
        self.passed_over_after(0.3)
        self.pair(1)
        self.serve(2, lambda: not is_deaf.is_set())
        self.serve(3)
        with self.lease() as session:
            self.assertEqual(session.wait(), 1)
            self.assertTrue((self.folder / "3.lock").exists())
            is_deaf.set()
            with self.lease() as other:
                self.assertEqual(other.wait(), 2)

    def test_no_server(self) -> None:
        self.pair(1)
        self.assertRaises(Late, Session.lease, self.folder, seconds=0.3)
        with open(self.folder / "1.lock") as lock:
            fcntl.flock(lock, fcntl.LOCK_EX | fcntl.LOCK_NB)

    def test_nothing_is_written_to_what_is_no_pipe(self) -> None:
        (self.folder / "1.in").write_text("kept")
        self.assertRaises(Lost, self.lease)
        self.assertEqual((self.folder / "1.in").read_text(), "kept")

    def test_faults_are_one_kind(self) -> None:
        for kind in (Refused, Unknown, Late, Lost, Garbled):
            self.assertTrue(issubclass(kind, Fault))
