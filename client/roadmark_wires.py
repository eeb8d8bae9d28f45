"""The ways to a server: a process, a socket, or a leased pair of named pipes. Each is two descriptors and waits no longer than it is told."""
from __future__ import annotations

import collections
import contextlib
import errno
import fcntl
import glob
import math
import os
import select
import socket
import stat
import subprocess
import termios
import time
from collections.abc import Sequence

from roadmark_answers import Late, Lost

Path = str | os.PathLike[str]
Address = Path | tuple[str, int]

# A pair of pipes whose server does not take a client in so many seconds is passed over for another one.
PAIR_PATIENCE = 1.0

class Wire:
    """Two descriptors: lines go into one, and answers come from the other. No call waits beyond `until`, a moment of time.monotonic()."""

    # So many seconds it has to end in order.
    rest = 1.0

    def __init__(self, source: int, sink: int) -> None:
        self.source, self.sink, self.has_ended = source, sink, False
        # The lines that have come, and the beginning of the next one.
        self.lines: collections.deque[bytes] = collections.deque()
        self.kept = bytearray()
        os.set_blocking(source, False)
        os.set_blocking(sink, False)

    def send(self, data: bytes, until: float) -> None:
        """Sends it all. What comes meanwhile is kept, so that the two sides never wait for one another."""
        left = memoryview(data)
        while left:
            self.stay(until, True)
            try:
                left = left[os.write(self.sink, left):]
            except BlockingIOError:
                pass
            except OSError as why:
                raise Lost(f"the server takes no more lines: {why.strerror}") from None

    def line(self, until: float) -> str:
        while not self.lines:
            if self.has_ended:
                raise Lost("the server ended the session" + (", in the middle of a line" if self.kept else ""))
            self.stay(until)
        return self.lines.popleft().decode("ascii", "backslashreplace")

    def stay(self, until: float, sends: bool = False) -> None:
        """Waits until something may be sent, or has come, and keeps what has come. A pipe that has no writer yet is not read, since that would look like its end."""
        wanted = {} if self.has_ended else {self.source: select.POLLIN}
        if sends:
            wanted[self.sink] = wanted.get(self.sink, 0) | select.POLLOUT
        poll = select.poll()
        for descriptor, events in wanted.items():
            poll.register(descriptor, events)
        seen = dict(poll.poll(None if math.isinf(until) else max(0, 1000 * (until - time.monotonic()))))
        if not seen:
            raise Late("the server did not answer in time")
        if seen.get(self.source, 0) & ~select.POLLOUT:
            self.fill()

    def fill(self) -> None:
        try:
            part = os.read(self.source, 1 << 18)
        except BlockingIOError:
            return
        except OSError:
            part = b""
        self.has_ended = not part
        first, *others = part.split(b"\n")
        self.kept += first
        if others:
            self.lines += [bytes(self.kept), *others[:-1]]
            self.kept = bytearray(others[-1])

    def end_lines(self) -> None:
        if self.sink >= 0:
            os.close(self.sink)
        self.sink = -1

    def close(self, seconds: float) -> int | None:
        """Sends no more lines, reads what still comes for so long, and closes; the status of a server of its own."""
        if self.source >= 0:
            self.end_lines()
            until = time.monotonic() + seconds
            with contextlib.suppress(Late):
                while not self.has_ended:
                    self.stay(until)
                    self.lines.clear()
            os.close(self.source)
        self.source = -1
        return None

class Process(Wire):
    """A server that is started here, and ends with the session."""

    rest = 60.0

    def __init__(self, words: Sequence[Path], errors: int | None) -> None:
        try:
            self.child = subprocess.Popen(words, stdin=subprocess.PIPE, stdout=subprocess.PIPE, stderr=errors)
        except OSError as why:
            raise Lost(f"{os.fspath(words[0])}: it can't be started: {why.strerror}") from None
        assert self.child.stdin is not None and self.child.stdout is not None
        super().__init__(os.dup(self.child.stdout.fileno()), os.dup(self.child.stdin.fileno()))
        self.child.stdout.close()
        self.child.stdin.close()

    def close(self, seconds: float) -> int | None:
        until = time.monotonic() + seconds
        super().close(seconds)
        try:
            return self.child.wait(max(0, until - time.monotonic()))
        except subprocess.TimeoutExpired:
            self.child.kill()
            return self.child.wait()

def connected(address: Address, seconds: float) -> socket.socket:
    if isinstance(address, tuple):
        made = socket.create_connection(address, seconds)
        made.setsockopt(socket.IPPROTO_TCP, socket.TCP_NODELAY, 1)
        return made
    made = socket.socket(socket.AF_UNIX)
    try:
        made.settimeout(seconds)
        made.connect(os.fspath(address))
        return made
    except OSError:
        made.close()
        raise

class Connection(Wire):
    """A connection by a local socket, or by TCP."""

    def __init__(self, address: Address, seconds: float) -> None:
        try:
            self.socket = connected(address, seconds)
        except TimeoutError:
            raise Late(f"{address}: no connection in time") from None
        except OSError as why:
            raise Lost(f"{address}: no connection: {why.strerror or why}") from None
        super().__init__(os.dup(self.socket.fileno()), self.socket.fileno())

    def end_lines(self) -> None:
        with contextlib.suppress(OSError):
            self.socket.shutdown(socket.SHUT_WR)
        self.socket.close()

class Pair(Wire):
    """A pair of named pipes, whose lease is a lock of FOLDER/N.lock, as it is for examples/attach.sh."""

    def __init__(self, name: str, lock: int, until: float) -> None:
        # Sessions of no line: what one before left is read to its end, and the server has closed both pipes behind it. It may have come back to the first one so
        # early that lines are left there: then one more.
        source, sink, _ = opened(name, until)
        is_left = True
        while is_left:
            before = Wire(source, sink)
            before.close(until - time.monotonic())
            if not before.has_ended:
                raise Late(f"{name}: its server is busy with a client who has gone")
            source, sink, is_left = opened(name, until)
        super().__init__(source, sink)
        self.lock = lock

    def close(self, seconds: float) -> int | None:
        if self.source >= 0:
            super().close(seconds)
            os.close(self.lock)
        return None

def pipe(path: str, flags: int) -> int:
    try:
        descriptor = os.open(path, flags | os.O_NONBLOCK)
    except OSError as why:
        if why.errno == errno.ENXIO:
            raise
        raise Lost(f"{path}: {why.strerror}") from None
    if not stat.S_ISFIFO(os.fstat(descriptor).st_mode):
        os.close(descriptor)
        raise Lost(f"{path}: it is no named pipe")
    return descriptor

def opened(name: str, until: float) -> tuple[int, int, bool]:
    """Where answers come from and where lines go, once a server waits for a client there; and whether lines are there already, which a server reads only behind this."""
    while True:
        try:
            sink = pipe(f"{name}.in", os.O_WRONLY)
            break
        except OSError:
            if time.monotonic() > until:
                raise Late(f"{name}.in: no server waits for a client there") from None
        time.sleep(0.002)
    is_left = any(fcntl.ioctl(sink, termios.FIONREAD, bytes(4)))
    try:
        return pipe(f"{name}.out", os.O_RDONLY), sink, is_left
    except Lost:
        os.close(sink)
        raise

def locked(path: str) -> int | None:
    """A descriptor that has the lock, or None where another one has it."""
    try:
        descriptor = os.open(path, os.O_RDONLY | os.O_CREAT, 0o666)
    except OSError as why:
        raise Lost(f"{path}: {why.strerror}") from None
    try:
        fcntl.flock(descriptor, fcntl.LOCK_EX | fcntl.LOCK_NB)
        return descriptor
    except BlockingIOError:
        os.close(descriptor)
        return None

def free_pair(folder: str, passed: set[str], until: float) -> tuple[str, int]:
    """The name of a pair that is free and was not passed over, and its lock. Who looks for one has the lock FOLDER/turn.lock meanwhile."""
    turn = None
    try:
        while True:
            names = sorted(path.removesuffix(".in") for path in glob.glob(f"{glob.escape(folder)}/*.in"))
            if not names:
                raise Lost(f"{folder}: there are no pairs of pipes")
            turn = locked(f"{folder}/turn.lock") if turn is None else turn
            for name in names if turn is not None else []:
                if name not in passed and (lock := locked(f"{name}.lock")) is not None:
                    return name, lock
            if time.monotonic() > until:
                raise Late(f"{folder}: no pair of pipes is free, or no server is there")
            passed.clear()
            time.sleep(0.01)
    finally:
        if turn is not None:
            os.close(turn)

def leased(folder: str, until: float) -> Pair:
    """A pair of the folder at which a server answers."""
    passed: set[str] = set()
    while True:
        name, lock = free_pair(folder, passed, until)
        try:
            return Pair(name, lock, min(until, time.monotonic() + PAIR_PATIENCE))
        except Late:
            passed.add(name)
        except BaseException:
            os.close(lock)
            raise
        os.close(lock)
