"""A session over a log beside a session with the server: each line of the manual, told both ways, has the same answer."""
from __future__ import annotations

import concurrent.futures
import os
import pathlib
import re
import shutil
import signal
import socket
import subprocess
import time
import unittest

from fake_etcd import Etcd
from fronts import LOOP, PATIENCE, PROGRAM, InFolder, Machine, answered, answers, begin, settled
from log import Log
from roadmark import ANSWERS, Refused, Session, Unknown

def group(word: str, *commands: str) -> list[str]:
    return [word, *commands, "end"]

# Every line of a session, and forms of it that are none. No command here is refused by the network, so versions are the same both ways.
LINES = [
    "dist 1 6", "dist 6 1", "dist 1 9", "dist 0 1", "dist 1", "dist 1 2 3", "dist a 2", "dist -1 2", "dist\t 0001  6\t", "dist 1 6\r", "dist 9223372036854775808 1", "dist 1 6 #", "Dist 1 6",
    "from 3 6", "from 1 6", "from 9 1", "from 3", "lower 5 6", "lower 6 1", "lower 1 9", "lower 1", "arc 7", "arc 0", "arc 99", "arc", "arc 1 2", "arcs 5 2", "arcs 6 1", "arcs 7 1", "arcs 5",
    "landmarks", "landmarks 1", "closed", "closed 1", "table 1 2 1 6 4", "table 2 1 1 6 4", "table 1 1 1 9", "table 0 1 4", "table 1 1 1", "table 1 1 1 x", "table 1 1 -1 2", "table 1 1 1 2 3", "table",
    "table 70 70 " + " ".join(str(1 + number % 6) for number in range(140)), "reach 1 10", "reach 6 0", "reach 9 1", "reach 1", "reached 4 2", "reached 9 1", "nearest 1 1", "nearest 1 0", "nearest 6 9", "nearest 9 1", "route 1 6", "route 6 1", "route 3 3", "route 9 1", "route 1", "route 0001 6",
    "state", "state 1", "wait", "wait 1", "until 0", "until 000", "until x", "until -1", "until 9223372036854775808", "until", "copy monday", "copy monday", "copy a.b", "copy", "copy a b", "copy " + "a" * 65,
    "hello", "end", "end 7", "begin 7", "suppose 7", "forget", "forget 7", "quit 7", "", "  \t", "# nothing", "  # nothing", "\r", "\x0bwait", "wait\0", "wa\udcffit", "x" * 100000, "0" * 5000,
    "set 8 4", "set 8", "set 8 4 4", "set 8 -4", "set 8 x", "set 8 9223372036854775808", "set\t008   00004\r", "close 7", "close -0", "close", "dist 1 6", "arc 7", "closed", "reopen 7", "mark 1", "landmarks", "from 1 6",
    "unmark 1", "lay 6 1 7", "lay 6 1", "arcs 6 1", "arc 10", "dist 6 1", "wait", "until 7", "copy tuesday",
    *group("begin", "close 7", "set 8 5"), *group("begin", "", "# night works", "reopen 7\r", "  set 8 4"), *group("begin"), *group("begin", "close 7", "dist 1 6", "close x"), *group("begin", "set 8 -4", "hello"),
    *group("begin", "close 7", "begin"), *group("begin", "close 7", "suppose"), *group("begin", "quit 7", "close 7"), *group("begin", "end 7"), *group("begin", *["set 8 4"] * 252), *group("begin", *["set 8 4"] * 254), "wait",
    *group("suppose", "close 7"), "dist 1 6", "from 3 4", "table 1 2 1 6 4", "reach 1 10", "reached 4 2", "nearest 1 2", "route 1 6", "route 6 1", "lower 1 6", "arc 7", "closed", "landmarks", "wait", "until 1", "state", "dist 1 9", "set 8 6", "dist 1 6",
    *group("begin", "set 8 7", "set 1 17"), "dist 1 6", "copy friday", "forget", "dist 1 6", "forget", *group("suppose", "lay 6 1 1", "set 8 1"), "dist 6 1", "arc 11", *group("suppose", "reopen 7"), "dist 6 1", "forget",
    *group("suppose"), *group("suppose", "hello"), *group("suppose", "close 7", "dist 1 6", "quit 7"), *group("suppose", "set 99 1"), *group("suppose", "", "# any", "close 7\r"), "dist 1 6", *group("suppose", "close 7", "close 7"),
    "dist 1 6", *group("suppose", *["set 8 4"] * 253), "dist 5 6", *group("suppose", *["set 8 4"] * 254), "dist 5 6", "wait", "state",
]

# Commands that the network refuses: a version over a log, and none with the server alone.
REFUSED = [
    "set 99 1", "set 0 1", "set 8 2147483648", "close 7", "close 7", "reopen 7", "reopen 7", "mark 3", "mark 9", "unmark 1", "lay 7 1 1", "lay 1 1 2147483648", *group("begin", "close 7", "close 7"),
    *group("begin", "lay 6 1 7", "set 10 4", "set 11 1"), *["lay 6 1 7"] * 6, "arcs 6 1", *group("suppose", "lay 6 1 7"), "dist 1 6", "closed", "landmarks",
]

def without_numbers(answer: list[str]) -> list[str]:
    """The same without the versions, and without the numbers of `state`."""
    return [re.sub("^(v|s|ok|suppose|copied) [0-9]+$", r"\1", line) if not line.startswith("state") else re.sub("[0-9]+", "N", line) for line in answer]

def without_state(answer: list[str]) -> list[str]:
    return without_numbers(answer) if answer and answer[0].startswith("state") else answer

class WithLog(InFolder):
    def setUp(self) -> None:
        super().setUp()
        self.etcd = Etcd()
        self.addCleanup(self.etcd.end)
        self.url = self.etcd.url

    def machine(self) -> Machine:
        (self.folder / "copies").mkdir()
        machine = Machine(self, self.url, self.begun(), "--copies", str(self.folder / "copies"))
        machine.is_up()
        return machine

    def begun(self) -> pathlib.Path:
        return self.begin(self.etcd)

    def plain(self) -> Session:
        """A session with a server alone, of a store like that of the machine."""
        (self.folder / "plain").mkdir()
        session = Session.start([PROGRAM, "serve", self.create("plain-one"), "--copies", str(self.folder / "plain")], PATIENCE)
        self.addCleanup(session.close)
        return session

    def compare(self) -> None:
        machine, plain = self.machine(), self.plain()
        told = machine.tell(self)
        for lines, masked in ((LINES, without_state), (REFUSED, without_numbers)):
            with concurrent.futures.ThreadPoolExecutor() as both:
                heard = both.map(answers, (told, plain), (lines, lines))
            for line, here, there in zip(lines, *heard):
                with self.subTest(line=line[:60]):
                    self.assertEqual(masked(here), masked(there))
        for session in (told, plain):
            self.assertEqual(answers(session, ["begin", "close 1", "quit"]), [[], [], []])
            self.assertEqual(session.close(), 0)
        self.assertEqual({name: self.run_program("check", f"copies/{name}").split("\n")[0] for name in os.listdir(self.folder / "copies")},
                         {name: self.run_program("check", f"plain/{name}").split("\n")[0] for name in os.listdir(self.folder / "plain")})

@unittest.skipUnless(PROGRAM, "the program")
class BothWays(WithLog):
    def test_each_line_has_the_answer_of_a_session(self) -> None:
        words = {line.split()[0] for line in LINES if line.split()}
        self.assertLessEqual({*ANSWERS, "end"}, {*words, "quit"})
        self.compare()

@unittest.skipUnless(PROGRAM, "the program")
@unittest.skipIf("NO_LOOPBACK" in os.environ, "the address 127.0.0.1")
@unittest.skipUnless(shutil.which("etcd"), "etcd")
class BothWaysByEtcd(WithLog):
    def setUp(self) -> None:
        InFolder.setUp(self)
        with socket.socket() as one, socket.socket() as other:
            for place in (one, other):
                place.bind(("127.0.0.1", 0))
            self.url, peer = (f"http://127.0.0.1:{place.getsockname()[1]}" for place in (one, other))
        words = ["etcd", "--name", "a", "--data-dir", self.folder / "etcd", "--listen-client-urls", self.url, "--advertise-client-urls", self.url, "--listen-peer-urls", peer,
                 "--initial-advertise-peer-urls", peer, "--initial-cluster", f"a={peer}", "--log-level", "error"]
        member = subprocess.Popen([str(word) for word in words], stdout=subprocess.DEVNULL, stderr=subprocess.DEVNULL)
        self.addCleanup(member.wait)
        self.addCleanup(member.kill)

    def begun(self) -> pathlib.Path:
        store = self.create("a")
        began = begin(self.url, store)
        self.assertEqual(began.returncode, 0, began.stderr)
        return store

    def test_each_line_has_the_answer_of_a_session(self) -> None:
        self.compare()

@unittest.skipUnless(PROGRAM, "the program")
class Supposing(WithLog):
    def test_what_is_supposed_is_no_change(self) -> None:
        machine = self.machine()
        told = machine.tell(self)
        self.assertEqual([told.suppose(["close 7"]), told.distance(1, 6)], [0, (0, 22)])
        self.assertEqual(answers(told, group("suppose", "close 7", "hello"))[-1], ["no 1"])
        told.close()
        self.assertEqual(Log([self.url], "roads").entries(1)[:2], ([], 0))
        self.assertEqual(machine.tell(self).arc(7)[1].is_open, True)

    def test_a_server_that_ends_takes_along_what_was_supposed(self) -> None:
        machine = self.machine()
        told = machine.tell(self)
        told.suppose(["close 7"])
        os.kill(machine.server(), signal.SIGKILL)
        for line in ("dist 1 6", "table 1 1 1 6", "lower 1 6", "reach 1 1"):
            with self.assertRaises(Refused) as refused:
                told.ask(line)
            self.assertEqual(refused.exception.code, 61)
        self.assertEqual([told.arc(7)[1].is_open, told.change("set 8 4"), answers(told, ["forget"])], [True, 1, [["forgotten"]]])
        self.assertEqual([told.distance(1, 6), told.suppose(["close 8"]), told.distance(1, 6)], [(1, 14), 1, (1, 15)])
        os.kill(machine.server(), signal.SIGKILL)
        self.assertEqual(answers(told, ["forget", "forget", "dist 1 6"]), [["forgotten"], ["no 1"], ["v 1", "d 1 6 14"]])
        self.assertIn("what was supposed is gone with the server", machine.telling().read_text())

@unittest.skipUnless(PROGRAM, "the program")
class Changes(WithLog):
    def unknown(self, machine: Machine, told: Session, command: str, why: str) -> None:
        """Nothing is known of the change day-1, for this reason. On a slow machine there may be another one at first: no server in time, or none of etcd."""
        until = time.monotonic() + PATIENCE
        while f"unknown day-1: {why}" not in machine.telling().read_text():
            self.assertLess(time.monotonic(), until, machine.telling().read_text())
            with self.assertRaises((Refused, Unknown)) as raised:
                told.change(command, "day-1")
            self.assertEqual(getattr(raised.exception, "code", 61), 61)

    def test_ids(self) -> None:
        machine = self.machine()
        told = machine.tell(self)
        self.assertEqual([told.change("close 7", "day-1"), told.change("close 7", "day-1"), told.group(["set 8 4", "set 1 9"], "day-2")], [1, 1, 2])
        with self.assertRaises(Refused) as refused:
            told.change("close 8", "day-1")
        self.assertEqual((refused.exception.code, told.wait()), (1, 2))
        self.assertIn("no 1: the id day-1 is that of another change, entry 1", machine.telling().read_text())

    def test_unknown_says_why(self) -> None:
        machine = self.machine()
        machine.tell(self).change("close 7")
        told = machine.tell(self, patience=1)
        self.etcd.refusal = "etcdserver: mvcc: database space exceeded"
        self.unknown(machine, told, "reopen 7", "etcd: " + self.url + ": status 429: etcdserver: mvcc: database space exceeded")
        self.assertEqual(answered(told, "dist 1 6"), ["v 1", "d 1 6 22"])
        self.etcd.refusal = ""
        self.assertEqual(settled(told, "reopen 7", "day-1"), 2)

    def test_a_follower_that_stands_still(self) -> None:
        machine = self.machine()
        told = machine.tell(self, patience=1)
        machine.child.send_signal(signal.SIGSTOP)
        self.addCleanup(machine.child.send_signal, signal.SIGCONT)
        self.unknown(machine, told, "close 7", "it is entry 1 of the log, and this machine does not show version 1 yet")
        machine.child.send_signal(signal.SIGCONT)
        self.assertEqual(settled(told, "close 7", "day-1"), 1)

    def test_without_a_pair_nothing_is_told_to_the_log(self) -> None:
        machine = self.machine()
        kept = [machine.tell(self) for _ in range(2)]
        for session in kept:
            session.wait()
        late = machine.tell(self, patience=1)
        self.assertEqual(answers(late, ["close 7", "dist 1 6"]), [["no 61"], ["no 61"]])
        self.assertEqual(Log([self.url], "roads").entries(1)[:2], ([], 0))
        self.assertIn("no 61, and nothing was told to the log", machine.telling().read_text())
        kept[0].close()
        self.assertEqual(machine.tell(self).change("close 7"), 1)

    def test_what_is_not_yet(self) -> None:
        machine = self.machine()
        told = machine.tell(self, patience=1)
        self.assertEqual([answered(told, line) for line in ("until 99", "until 9223372036854775807", "dist 1 6")], [["no 54"], ["no 54"], ["v 0", "d 1 6 15"]])

    def test_a_server_that_is_killed_is_not_seen(self) -> None:
        machine = self.machine()
        told = machine.tell(self)
        for number in range(1, 4):
            self.assertEqual(told.change(f"set 8 {number}"), number)
            os.kill(machine.server(), signal.SIGKILL)
            self.assertEqual(told.ask(f"dist 5 6").lines, [f"v {number}", f"d 5 6 {number}"])
        os.kill(machine.server(), signal.SIGKILL)
        self.assertEqual(told.change("set 8 9"), 4)
        self.assertEqual(told.arc(LOOP)[1].length, 4)
