"""What the tests of web/ share: checks that are counted, and folders."""
import contextlib
import io
import pathlib
import signal
import subprocess
import sys
import time
import traceback
from collections.abc import Callable

WEB = pathlib.Path(__file__).resolve().parent.parent
PYTHON = "/usr/bin/python3"
PATIENCE = 180
# A check takes no more than so many seconds.
LONGEST = 600


def too_long(number: int, frame: object) -> None:
    raise TimeoutError(f"it takes more than {LONGEST} seconds")


class Checks:
    """Counts what passed and failed of the checks in whose name a word stands. A check is a function without arguments that raises where it fails."""

    def __init__(self, only: str = "") -> None:
        self.only, self.passed, self.failed = only, 0, 0
        signal.signal(signal.SIGALRM, too_long)

    def run(self, name: str, check: Callable[[], None]) -> None:
        if self.only not in name:
            return
        began = time.monotonic()
        signal.alarm(LONGEST)
        try:
            check()
        except Exception as fault:
            self.failed += 1
            where = traceback.extract_tb(fault.__traceback__)[-1]
            print(f"FAILED {name}: {type(fault).__name__}: {fault} ({pathlib.Path(where.filename).name}:{where.lineno})", flush=True)
        else:
            self.passed += 1
            print(f"passed {name} ({time.monotonic() - began:.1f} s)", flush=True)
        finally:
            signal.alarm(0)

    def end(self) -> int:
        print(f"{self.passed} passed, {self.failed} failed")
        return int(self.failed > 0)


def equal(got: object, wanted: object, what: str = "") -> None:
    if got != wanted:
        raise AssertionError(f"{what + ': ' if what else ''}got {str(got)[:600]}, wanted {str(wanted)[:600]}")


def true(holds: object, what: str) -> None:
    if not holds:
        raise AssertionError(what)


def call(*words: object, status: int = 0, **options: object) -> subprocess.CompletedProcess[str]:
    """Runs a program to its end, and sees its status."""
    done = subprocess.run([str(word) for word in words], capture_output=True, text=True, timeout=PATIENCE * 10, **options)
    equal(done.returncode, status, f"status of {' '.join(str(word) for word in words)[:200]}: {done.stderr[-300:]}")
    return done


def from_osm(*words: object, status: int = 0) -> str:
    """Runs web/from_osm.py in this process, and sees its status; what it told on standard error."""
    import from_osm as importer
    told = io.StringIO()
    with contextlib.redirect_stdout(told), contextlib.redirect_stderr(told):
        try:
            ended = importer.main([str(word) for word in words])
        except SystemExit as end:
            ended = end.code
    equal(ended, status, f"status of from_osm {words}: {told.getvalue()[-300:]}")
    return told.getvalue()


def skip(what: str) -> None:
    print(f"left out: {what}", file=sys.stderr, flush=True)
