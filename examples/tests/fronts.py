"""What the tests of the scripts share: the program that is tried, a folder of one's own, and machines that follow a log."""
from __future__ import annotations

import functools
import os
import pathlib
import subprocess
import sys
import tempfile
import time
import unittest

from fake_etcd import Etcd
from roadmark import OVER_A_LOG, Refused, Session, Unknown
from run import parents

PROGRAM = os.environ.get("ROADMARK", "")
# Nothing outside the standard library is there for the scripts.
PYTHON = [sys.executable, "-S"]
EXAMPLES = pathlib.Path(__file__).resolve().parents[1]
REPLICAS = EXAMPLES / "replicas"
# Arc 9, a loop, keeps the number of the last entry.
SIX = "p sp 6 9\na 1 2 17\na 1 3 10\na 2 4 2\na 3 5 0\na 4 3 0\na 4 6 3\na 5 2 0\na 5 6 20\na 1 1 0\n"
LOOP, ROOM, NAME = 9, 14, "roads"
# A machine that has much else to do may stand still for a while.
PATIENCE = 300.0

def created(folder: pathlib.Path, name: str, text: str = SIX) -> pathlib.Path:
    (folder / f"{name}.gr").write_text(text)
    subprocess.run([PROGRAM, "create", f"{name}.store", f"{name}.gr", EXAMPLES / "six.ss", "--room", str(ROOM)], check=True, cwd=folder, timeout=PATIENCE, stdout=subprocess.DEVNULL)
    return folder / f"{name}.store"

class InFolder(unittest.TestCase):
    """Each test has a folder, which goes with all that was started in it."""

    def setUp(self) -> None:
        folder = tempfile.TemporaryDirectory()
        self.addCleanup(folder.cleanup)
        self.folder = pathlib.Path(folder.name)

    def run_program(self, *words: str | os.PathLike[str]) -> str:
        return subprocess.run([PROGRAM, *words], capture_output=True, text=True, check=True, cwd=self.folder, timeout=PATIENCE).stdout

    def create(self, name: str, text: str = SIX) -> pathlib.Path:
        return created(self.folder, name, text)

    def begin(self, etcd: Etcd) -> pathlib.Path:
        """The store a.store, and a log that begins with it."""
        store, keys = begun()
        (self.folder / "a.store").write_bytes(store)
        for key, value in keys.items():
            etcd.put(key, value)
        return self.folder / "a.store"

class Machine:
    """A store with its follower."""

    def __init__(self, test: InFolder, url: str, store: pathlib.Path, *options: str) -> None:
        self.url, self.store, self.folder, self.pairs = url, store, test.folder, store.with_suffix(".pairs")
        self.errors = store.with_suffix(".errors")
        words: list[str | os.PathLike[str]] = [*PYTHON, REPLICAS / "follow.py", "--program", PROGRAM, "--pairs", "2", "--machine", store.stem, *options, url, NAME, store, self.pairs]
        with self.errors.open("w") as errors:
            self.child = subprocess.Popen(words, stderr=errors)
        test.addCleanup(self.end)

    def end(self) -> int:
        """Ends it in order, and its server with it."""
        if self.child.poll() is None:
            self.child.terminate()
        return self.child.wait(PATIENCE)

    def said(self) -> str:
        return self.errors.read_text()

    def is_up(self) -> None:
        until = time.monotonic() + PATIENCE
        while "at entry" not in self.said():
            assert self.child.poll() is None and time.monotonic() < until, self.said()
            time.sleep(0.02)

    def status(self) -> int:
        return self.child.wait(PATIENCE)

    def server(self) -> int:
        """The server's process, the follower's child."""
        [server] = [process for process, parent in parents().items() if parent == self.child.pid]
        return server

    def tell(self, test: InFolder, patience: float = PATIENCE) -> Session:
        """A session by tell.py, whose words on standard error go to a file."""
        with self.telling().open("a") as errors:
            session = Session.start([*PYTHON, REPLICAS / "tell.py", "--patience", str(patience), self.url, NAME, self.pairs], 2 * PATIENCE, OVER_A_LOG, errors.fileno())
        test.addCleanup(session.close)
        return session

    def telling(self) -> pathlib.Path:
        return self.store.with_suffix(".told")

def begin(url: str, store: pathlib.Path) -> subprocess.CompletedProcess[str]:
    return subprocess.run([*PYTHON, REPLICAS / "follow.py", "--program", PROGRAM, "--begin", str(LOOP), url, NAME, store], capture_output=True, text=True, timeout=PATIENCE)

@functools.cache
def begun() -> tuple[bytes, dict[str, str]]:
    """A store, and the keys of the log that begins with it: each test has its own copy of both."""
    with tempfile.TemporaryDirectory() as name:
        folder, etcd = pathlib.Path(name), Etcd()
        try:
            store = created(folder, "a")
            began = begin(etcd.url, store)
            assert (began.returncode, began.stdout) == (0, f"log {NAME}: version 0 has entry 0, arc {LOOP} keeps the number\n"), began
            return store.read_bytes(), {key: value for key, (value, _, _) in etcd.keys.items()}
        finally:
            etcd.end()

def settled(session: Session, command: str, identity: str) -> int:
    """The version of a change that is told under its id until an answer is there."""
    until = time.monotonic() + PATIENCE
    while True:
        try:
            return session.change(command, identity)
        except Unknown:
            assert time.monotonic() < until
        except Refused as refused:
            assert refused.code == 61 and time.monotonic() < until, refused

def answered(session: Session, line: str) -> list[str]:
    """The answer to a line by a session of short patience, in which a slow machine may find no pair of pipes: then it is told again."""
    until = time.monotonic() + PATIENCE
    while (answer := list(session.stream(line))) == ["no 61"]:
        assert time.monotonic() < until
    return answer

def answers(session: Session, lines: list[str]) -> list[list[str]]:
    """The answer to each of the lines, as it came. What was changed is shown before the next one is told: over a log it is, and with a server alone it is waited for."""
    told = []
    for line in lines:
        told.append(list(session.stream(line)))
        if told[-1][:1] and told[-1][0].startswith("ok"):
            session.wait()
    return told
