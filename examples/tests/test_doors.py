"""A server at named pipes of the file system: who comes when, who leaves how, what is reported, and how it ends."""
from __future__ import annotations

import contextlib
import errno
import os
import pathlib
import re
import resource
import select
import signal
import stat
import subprocess
import time
import unittest

from fronts import EXAMPLES, PATIENCE, PROGRAM, InFolder

# A server that should not take something has so many seconds to take it.
REST = 0.3

def opened(path: pathlib.Path, how: int) -> int:
    """A pipe whose other end the server opens meanwhile: without that it is not waited for for ever."""
    until = time.monotonic() + PATIENCE
    while True:
        try:
            descriptor = os.open(path, how | os.O_NONBLOCK)
            os.set_blocking(descriptor, True)
            return descriptor
        except OSError as why:
            assert why.errno == errno.ENXIO and time.monotonic() < until, why
            time.sleep(0.005)

class Client:
    """One who writes into the first pipe, and reads the second: the first is opened first, as the pages say."""

    def __init__(self, pair: tuple[pathlib.Path, pathlib.Path]) -> None:
        self.sink = opened(pair[0], os.O_WRONLY)
        self.source = os.open(pair[1], os.O_RDONLY)

    def send(self, text: str) -> None:
        os.write(self.sink, text.encode())

    def read(self, count: int = 1 << 20) -> str:
        """What comes until the server closes, or so many bytes."""
        told = b""
        while len(told) < count:
            assert select.select([self.source], [], [], PATIENCE)[0], told
            part = os.read(self.source, count - len(told))
            if not part:
                break
            told += part
        return told.decode()

    def asks(self, test: unittest.TestCase, line: str, answer: str) -> None:
        self.send(line)
        test.assertEqual(self.read(len(answer)), answer)

    def end_lines(self) -> None:
        if self.sink >= 0:
            os.close(self.sink)
        self.sink = -1

    def leave(self) -> None:
        self.end_lines()
        os.close(self.source)

    def says(self, lines: str) -> str:
        """All that it is told of these lines."""
        try:
            self.send(lines)
            self.end_lines()
            return self.read()
        finally:
            self.leave()

@unittest.skipUnless(PROGRAM, "the built program")
class Doors(InFolder):
    def setUp(self) -> None:
        super().setUp()
        self.store, self.errors = self.create("a"), self.folder / "errors"
        self.pairs: list[tuple[pathlib.Path, pathlib.Path]] = []

    def serve(self, count: int, *options: str) -> subprocess.Popen[str]:
        """A server at so many pairs. Those that are there already are used again."""
        for number in range(len(self.pairs), count):
            pair = (self.folder / f"{number}.in", self.folder / f"{number}.out")
            for name in pair:
                os.mkfifo(name)
            self.pairs.append(pair)
        names = [name for pair in self.pairs for name in pair]
        with self.errors.open("w") as errors:
            server = subprocess.Popen([PROGRAM, "serve", *options, self.store, *names], stdin=subprocess.PIPE, stdout=subprocess.PIPE, stderr=errors, text=True)
        self.addCleanup(self.end, server)
        return server

    def end(self, server: subprocess.Popen[str]) -> None:
        server.kill()
        server.wait()
        for stream in (server.stdin, server.stdout):
            with contextlib.suppress(OSError):
                if stream:
                    stream.close()

    def ends_well(self, server: subprocess.Popen[str], told: str = "") -> None:
        out, _ = server.communicate("quit\n", PATIENCE)
        self.assertEqual((server.returncode, out, self.errors.read_text()), (0, "", told))

    def come(self, number: int = 0) -> Client:
        return Client(self.pairs[number])

    def come_until(self, number: int, lines: str, answer: str) -> None:
        """Comes again until it is told this and nothing else: who comes while the session before ends may be told nothing, or what that one left."""
        until, told = time.monotonic() + PATIENCE, ""
        while told != answer:
            assert time.monotonic() < until, told
            with contextlib.suppress(BrokenPipeError):
                told = self.come(number).says(lines)

    def shown(self, wanted: str, seconds: float = PATIENCE) -> list[str]:
        """The lines of standard error, once one of them is this."""
        until = time.monotonic() + seconds
        while True:
            lines = self.errors.read_text().splitlines()
            if wanted in lines:
                return lines
            assert time.monotonic() < until, (wanted, lines)
            time.sleep(0.02)

    def test_twenty_clients_in_turn(self) -> None:
        """Each has a session of its own, and one comes after the other went."""
        server = self.serve(1)
        for count in range(1, 21):
            self.assertEqual(self.come().says(f"set 1 {count}\nwait\n"), f"ok {count}\nv {count}\n")
        self.ends_well(server)

    def test_three_pairs_at_once(self) -> None:
        """Each pair has a thread, and what one client changes the others see."""
        server = self.serve(3)
        clients = [self.come(number) for number in (2, 0, 1)]
        for count, client in enumerate(clients, 1):
            client.asks(self, f"set 8 {count}\n", f"ok {count}\n")
        for client in clients:
            client.asks(self, "until 3\ndist 1 6\n", "v 3\nv 3\nd 1 6 13\n")
            client.leave()
        self.ends_well(server)

    def test_a_version_to_which_nothing_leads_yet(self) -> None:
        """Who asks for it waits, and is answered once another client leads there."""
        server = self.serve(2)
        waiting, other = self.come(0), self.come(1)
        waiting.send("until 1\n")
        self.assertEqual(select.select([waiting.source], [], [], REST)[0], [])
        other.asks(self, "close 7\n", "ok 1\n")
        self.assertEqual(waiting.read(4), "v 1\n")
        waiting.leave()
        other.leave()
        self.ends_well(server)

    def test_who_leaves_is_no_fault(self) -> None:
        """In the middle of a line, which is not carried out; before the answer; with no line at all; and the next client finds the pair as the first did."""
        server = self.serve(1)
        client = self.come()
        client.send("set 1 5\nset 1 6")
        client.end_lines()
        self.assertEqual(client.read(), "ok 1\n")
        client.leave()
        client = self.come()
        client.asks(self, "until 1\n", "v 1\n")
        os.close(client.source)
        with contextlib.suppress(BrokenPipeError):
            for _ in range(1000):
                client.send("dist 1 6\n")
        client.end_lines()
        self.come_until(0, "until 1\n", "v 1\n")
        self.assertEqual(self.come().says("until 1\nset 1 7\n"), "v 1\nok 2\n")
        self.ends_well(server)

    def test_one_who_reads_nothing_holds_up_nobody(self) -> None:
        server = self.serve(3)
        deaf = self.come(1)
        os.set_blocking(deaf.sink, False)
        with contextlib.suppress(BlockingIOError):
            while True:
                os.write(deaf.sink, b"table 10 10" + b" 1" * 20 + b"\n")
        for number in (0, 2):
            self.assertEqual(self.come(number).says("dist 1 6\n"), "v 0\nd 1 6 15\n")
        deaf.leave()
        self.come_until(1, "dist 1 6\n", "v 0\nd 1 6 15\n")
        self.ends_well(server)

    def test_a_pipe_that_is_gone(self) -> None:
        """The pair is served no more, which is told with its reason; the other one is."""
        server = self.serve(2)
        gone, client = self.pairs[0][0], self.come(0)
        gone.unlink()
        self.assertEqual(client.says("wait\n"), "v 0\n")
        why = f"roadmark: {gone}: there is no such file or folder"
        self.assertEqual(self.shown(why), [f"roadmark: {gone}: 10 Read", why])
        self.assertEqual(self.come(1).says("wait\n"), "v 0\n")
        self.ends_well(server, f"roadmark: {gone}: 10 Read\n{why}\n")

    def test_a_start_that_is_refused_opens_no_door(self) -> None:
        with self.store.open("r+b") as store:
            store.write(b"x")
        server = self.serve(1)
        self.assertEqual(server.wait(PATIENCE), 1)
        self.assertEqual(self.errors.read_text(), f"roadmark: 40 NotAStore\nroadmark: {self.store}: it is not a store\n")
        with self.assertRaises(OSError) as why:
            os.open(self.pairs[0][0], os.O_WRONLY | os.O_NONBLOCK)
        self.assertEqual(why.exception.errno, errno.ENXIO)

    def test_a_start_that_finds_no_thread_opens_no_door(self) -> None:
        """Clients wait at all pairs already. Where there is no thread for one of these, none of them comes in."""
        sinks, names = [], []
        for number in range(60):
            for name in (self.folder / f"{number}.in", self.folder / f"{number}.out"):
                os.mkfifo(name)
                sinks.append(os.open(name, os.O_RDWR | os.O_NONBLOCK))
                self.addCleanup(os.close, sinks[-1])
                names.append(name)
            os.write(sinks[-2], b"dist 1 6\n")

        def allow_few_threads() -> None:
            resource.setrlimit(resource.RLIMIT_STACK, (1 << 23, 1 << 23))
            resource.setrlimit(resource.RLIMIT_AS, (1 << 28, 1 << 28))

        server = subprocess.run([PROGRAM, "serve", self.store, *names], input="", capture_output=True, text=True, timeout=PATIENCE, preexec_fn=allow_few_threads)
        self.assertEqual((server.returncode, server.stdout, server.stderr), (1, "", "roadmark: 63 NoThread\n"))
        self.assertEqual([os.read(sink, 100) for sink in sinks[::2]], [b"dist 1 6\n"] * 60)

    def last_answer(self) -> str:
        """What a client is told that is within an answer when the server ends."""
        server = self.serve(1)
        client = self.come()
        client.send("table 120 120" + " 1" * 240 + "\n")
        answer = client.read(1000)
        assert server.stdin is not None
        server.stdin.close()
        server.stdin = None
        time.sleep(REST)
        answer += client.read()
        self.assertEqual(server.wait(PATIENCE), 0)
        self.assertEqual(self.run_program("check", str(self.store)), "v 0\nslot A 1\njournal 0\n")
        client.leave()
        return answer

    def test_last_answers(self) -> None:
        """It gets the rest of it within a second, which a machine that has much else to do may miss; the store is another's as soon as the server has ended."""
        answers = (self.last_answer() for _ in range(5))
        self.assertIn("v 0\n" + "d 1 1 0\n" * 14400, answers)

    def test_a_last_view_that_takes_long(self) -> None:
        """Who waits for it when the server ends is answered, though that takes longer than the second for last answers: it begins once the view is shown."""
        nodes, landmarks = 40_000, 300
        arcs = "".join(f"a {node} {node + 1} 1\n" for node in range(1, nodes))
        (self.folder / "line.gr").write_text(f"p sp {nodes} {nodes - 1}\n{arcs}")
        (self.folder / "line.ss").write_text(f"p aux sp ss {landmarks}\n" + "".join(f"s {node}\n" for node in range(1, landmarks + 1)))
        self.run_program("create", "line.store", "line.gr", "line.ss")
        self.store = self.folder / "line.store"
        server = self.serve(1, "--workers", "1")
        client = self.come()
        client.asks(self, f"set {landmarks + 1} 5\n", "ok 1\n")
        client.send("wait\n")
        time.sleep(REST / 3)
        assert server.stdin is not None
        server.stdin.close()
        server.stdin = None
        self.assertEqual(client.read(), "v 1\n")
        self.assertEqual(server.wait(PATIENCE), 0)
        client.leave()

    def test_what_is_told_of_a_server(self) -> None:
        """Where it is asked for: that it opens, that it is ready, and each second in which that has changed how it stands. A lone line tells who came, and went."""
        server = self.serve(2, "--verbose")
        lines = self.shown("note: ready, durable 0, shown 0")
        self.assertEqual(lines, [f"note: {self.store}: opening", "note: ready, durable 0, shown 0"])
        one, two = self.come(0), self.come(1)
        self.shown("note: durable 0, shown 0, 2 clients, 2 came, 0 went")
        one.leave()
        self.shown("note: durable 0, shown 0, 1 clients, 2 came, 1 went")
        two.asks(self, "close 7\nwait\n", "ok 1\nv 1\n")
        began = time.monotonic()
        self.shown("note: durable 1, shown 1, 1 clients, 2 came, 1 went")
        two.leave()
        lines = self.shown("note: durable 1, shown 1, 0 clients, 2 came, 2 went")
        time.sleep(2.5)
        self.assertEqual(self.errors.read_text().splitlines(), lines, "a second in which nothing changed")
        for count in range(2, 30):
            self.assertIn(self.come().says(f"set 1 {count}\n"), f"ok {count}\n")
        told = len(self.errors.read_text().splitlines()) - len(lines)
        self.assertLessEqual(told, time.monotonic() - began + 1)
        for line in lines[1:]:
            self.assertRegex(line, re.compile(r"note: (ready, )?durable \d+, shown \d+(, \d+ behind)?(, \d+ clients, \d+ came, \d+ went)?$"))
        server.communicate("quit\n", PATIENCE)
        self.assertEqual(server.returncode, 0)

    def test_files_that_are_made(self) -> None:
        """A new store, a copy and the texts of an export are for the owner and the group to write, and for all to read."""
        umask = os.umask(0)
        self.addCleanup(os.umask, umask)
        (self.folder / "texts").mkdir()
        (self.folder / "copies").mkdir()
        self.create("b")
        self.run_program("export", "b.store", "texts")
        server = subprocess.run([PROGRAM, "serve", "b.store", "--copies", "copies"], input="copy a\n", capture_output=True, text=True, cwd=self.folder, timeout=PATIENCE)
        self.assertEqual((server.stdout, server.stderr), ("copied 0\n", ""))
        for name in ("b.store", "copies/a", "texts/network.gr", "texts/landmarks.ss", "texts/closed.commands"):
            self.assertEqual(stat.S_IMODE((self.folder / name).stat().st_mode), 0o664, name)

    def test_a_copy_that_fails(self) -> None:
        """A copy that cannot be written is refused, and nothing of its name is left."""
        (self.folder / "copies").mkdir()

        def allow_small_files() -> None:
            resource.setrlimit(resource.RLIMIT_FSIZE, (8192, 8192))

        # A process that ignores the signal for a file that grows too large gets an error instead.
        ignored = signal.signal(signal.SIGXFSZ, signal.SIG_IGN)
        self.addCleanup(signal.signal, signal.SIGXFSZ, ignored)
        server = subprocess.run([PROGRAM, "serve", "a.store", "--copies", "copies"], input="copy a\ndist 1 6\n", capture_output=True, text=True, cwd=self.folder, timeout=PATIENCE, preexec_fn=allow_small_files, restore_signals=False)
        self.assertEqual((server.stdout, server.stderr, server.returncode), ("no 43\nv 0\nd 1 6 15\n", "", 0))
        self.assertEqual(list((self.folder / "copies").iterdir()), [])

    def test_copies_of_later_versions(self) -> None:
        """A copy has the version that is told, with the rows of that version, also where the journal is full, and as many pages of journal as the store."""
        self.run_program("create", "b.store", "a.gr", str(EXAMPLES / "six.ss"), "--journal", "2")
        (self.folder / "copies").mkdir()
        lines = "close 7\ncopy a\nset 8 4\nset 8 3\ncopy b\ndist 1 6\ncopy b\ncopy none/c\n"
        server = subprocess.run([PROGRAM, "serve", "b.store", "--copies", "copies"], input=lines, capture_output=True, text=True, cwd=self.folder, timeout=PATIENCE)
        told = re.findall(r"copied (\d+)", server.stdout)
        self.assertEqual(len(told), 2, server.stdout)
        for name, version in zip("ab", told):
            copy = f"copies/{name}"
            self.assertEqual(self.run_program("check", copy), f"v {version}\nslot A 1\njournal 0\n")
            self.assertEqual((self.folder / copy).stat().st_size, (self.folder / "b.store").stat().st_size)
        self.assertEqual(sorted(path.name for path in (self.folder / "copies").iterdir()), ["a", "b"])
