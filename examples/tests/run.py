"""Runs the tests of the fronts, for tools/try_fronts.sh: all files and all processes of theirs are below one folder and one process, and are gone at the end. The last line is `N passed, N failed`."""
from __future__ import annotations

import collections
import contextlib
import ctypes
import faulthandler
import os
import pathlib
import signal
import socket
import sys
import tempfile
import threading
import time
import unittest

# The whole run ends within so many seconds, and what a test leaves running has so many to end by itself.
LONGEST, REST = 3600, 30
PR_SET_CHILD_SUBREAPER = 36
ENDS = (signal.SIGHUP, signal.SIGINT, signal.SIGTERM)

class Result(unittest.TextTestResult):
    """Tells each test that took long, and counts those that were left out by what they need."""

    passed = 0
    needs: collections.Counter[str] = collections.Counter()

    def startTest(self, test: unittest.TestCase) -> None:
        super().startTest(test)
        self.began = time.monotonic()

    def addSuccess(self, test: unittest.TestCase) -> None:
        super().addSuccess(test)
        Result.passed += 1

    def addSkip(self, test: unittest.TestCase, reason: str) -> None:
        super().addSkip(test, reason)
        Result.needs[reason] += 1

    def stopTest(self, test: unittest.TestCase) -> None:
        super().stopTest(test)
        if time.monotonic() - self.began > 10:
            self.stream.writeln(f" {test.id()}: {time.monotonic() - self.began:.0f} s")

def parents() -> dict[int, int]:
    """Each process that has not ended, and its parent."""
    found = {}
    for stat in pathlib.Path("/proc").glob("[0-9]*/stat"):
        with contextlib.suppress(OSError):
            state, parent, *_ = stat.read_text(errors="replace").rpartition(")")[2].split()
            if state not in "ZX":
                found[int(stat.parent.name)] = int(parent)
    return found

def descendants() -> list[int]:
    """All processes that were started here and have not ended: one whose own parent has ended is this one's child."""
    of, found = parents(), [os.getpid()]
    for process in found:
        found += [child for child, parent in of.items() if parent == process]
    return found[1:]

def words_of(process: int) -> str:
    try:
        return pathlib.Path(f"/proc/{process}/cmdline").read_text(errors="replace").replace("\0", " ").strip()
    except OSError:
        return "it has ended since"

def end_all() -> None:
    """Ends what was started here; who is killed may have started another one meanwhile."""
    while left := descendants():
        for process in left:
            with contextlib.suppress(ProcessLookupError):
                os.kill(process, signal.SIGKILL)
        time.sleep(0.05)

def left_running() -> list[str]:
    """Who has not ended by itself. They are ended then."""
    until = time.monotonic() + REST
    while descendants() and time.monotonic() < until:
        time.sleep(0.02)
    left = [f"{process} {words_of(process)}" for process in descendants()]
    end_all()
    return left

def has_loopback() -> bool:
    """Whether 127.0.0.1 may be connected to."""
    with socket.socket() as door:
        try:
            door.bind(("127.0.0.1", 0))
            door.listen()
            socket.create_connection(door.getsockname()).close()
            return True
        except OSError:
            return False

def end_late() -> None:
    """Where a test has no end the run has one, and tells where each thread stood."""
    faulthandler.dump_traceback(all_threads=True)
    print(f"not done within {LONGEST} seconds", flush=True)
    os.kill(os.getpid(), signal.SIGTERM)

def interrupt(*_: object) -> None:
    """What a test has begun is left to the end of the run."""
    for number in ENDS:
        signal.signal(number, signal.SIG_IGN)
    raise KeyboardInterrupt

def run(top: pathlib.Path) -> bool:
    """Runs all tests, and tells whether none failed."""
    folders = [str(top / folder) for folder in ("client/tests", "examples/tests")]
    suite = unittest.TestSuite(unittest.TestLoader().discover(folder, top_level_dir=folder) for folder in folders)
    count = suite.countTestCases()
    unittest.TextTestRunner(sys.stdout, resultclass=Result, warnings="ignore").run(suite)
    for reason, left in Result.needs.items():
        print(f"{left} left out: {reason} is not here")
    running = left_running()
    for process in running:
        print(f"left running: {process}")
    failed = count - Result.passed - sum(Result.needs.values())
    print(f"{Result.passed} passed, {failed + len(running)} failed", flush=True)
    return not failed and not running

def main() -> int:
    top = pathlib.Path(sys.argv[1])
    sys.path[:0] = [str(top / folder) for folder in ("client", "examples/replicas", "examples/tests")]
    if not has_loopback():
        os.environ["NO_LOOPBACK"] = "yes"
    ctypes.CDLL(None).prctl(PR_SET_CHILD_SUBREAPER, 1, 0, 0, 0)
    for number in ENDS:
        signal.signal(number, interrupt)
    watch = threading.Timer(LONGEST, end_late)
    watch.daemon = True
    watch.start()
    # Names of sockets are short, so these folders are where their names are.
    with tempfile.TemporaryDirectory(prefix="fronts.", dir="/tmp" if os.access("/tmp", os.W_OK) else None) as work:
        tempfile.tempdir = os.environ["TMPDIR"] = work
        # Python programs that are started here are compiled once.
        os.environ["PYTHONPYCACHEPREFIX"] = f"{work}/compiled"
        try:
            return 0 if run(top) else 1
        except KeyboardInterrupt:
            print(f"{Result.passed} passed, the others were not run to their end", flush=True)
            return 1
        finally:
            end_all()

if __name__ == "__main__":
    status = main()
    sys.stdout.flush()
    # Threads that a test left are not waited for.
    os._exit(status)
