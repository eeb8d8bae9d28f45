"""Pools of sessions with one roadmark server. Each session has a pair of pipes, a thread and a queue; many clients share them, each for one turn."""
import asyncio
import math
import pathlib
import queue
import threading
import time
from collections.abc import Callable
from dataclasses import dataclass, field
from typing import Any, TypeVar

from roadmark import Fault, Refused, Session

T = TypeVar("T")

# A lease that was refused is tried again after so many seconds; one that is asked for takes so long at most.
AGAIN, LEASE = 0.5, 3.0


class Busy(Exception):
    """All queues are long: come again in so many seconds."""

    def __init__(self, seconds: int) -> None:
        self.seconds = seconds
        super().__init__("more is asked than is answered")


class Away(Exception):
    """No server is at the pipes, or it went before its answer came. `detail` is for who runs the gateway: it may name files."""

    def __init__(self, detail: str, told: str = "no server takes clients at the pipes now") -> None:
        self.detail = detail
        super().__init__(told)


class TooLate(Exception):
    """No answer in time."""


class Cut(Exception):
    """The connection ended, or the time, when a change had been told: it may be durable or not."""


@dataclass
class Turn:
    """A session that is one's own until a moment, and the arcs of what is supposed in it: their lengths, None where they are closed."""

    session: Session
    until: float
    supposed: dict[int, int | None] = field(default_factory=dict)

    @property
    def left(self) -> float:
        return max(0.001, self.until - time.monotonic())


@dataclass
class Job:
    """What is done in a turn. What only asks is done again where its session turns out to be over."""

    work: Callable[[Turn], Any]
    until: float
    only_asks: bool
    loop: asyncio.AbstractEventLoop
    future: asyncio.Future
    lock: threading.Lock = field(default_factory=threading.Lock)
    begun: bool = False
    given_up: bool = False

    def begin(self) -> bool:
        """Whether it is to be done; from then on it is not given up any more."""
        with self.lock:
            self.begun = not self.given_up
            return self.begun

    def give_up(self) -> bool:
        """Whether it was not begun, and never will be."""
        with self.lock:
            self.given_up = not self.begun
            return self.given_up

    def settle(self, result: Any, fault: BaseException | None) -> None:
        def tell() -> None:
            if self.future.done():
                return
            if fault is None:
                self.future.set_result(result)
            else:
                self.future.set_exception(fault)
        try:
            self.loop.call_soon_threadsafe(tell)
        except RuntimeError:
            pass


class Worker(threading.Thread):
    """One session, which is leased again wherever it was lost."""

    def __init__(self, folder: pathlib.Path, is_up: threading.Event) -> None:
        super().__init__(daemon=True)
        self.folder, self.is_up, self.session, self.leases = folder, is_up, None, 0
        self.jobs: queue.SimpleQueue[Job | None] = queue.SimpleQueue()
        self.lock, self.load = threading.Lock(), 0
        self.tried, self.why = -math.inf, ""

    def count(self, more: int) -> int:
        with self.lock:
            self.load += more
            return self.load

    def run(self) -> None:
        while True:
            try:
                job = self.jobs.get(timeout=1)
            except queue.Empty:
                self.connect(time.monotonic() + LEASE)
                continue
            if job is None:
                self.drop()
                return
            try:
                self.do(job)
            finally:
                self.count(-1)

    def do(self, job: Job) -> None:
        if not job.begin():
            return
        for last in (False, True):
            fresh = self.session is None
            if time.monotonic() >= job.until:
                return job.settle(None, TooLate())
            if not self.connect(min(job.until, time.monotonic() + LEASE)):
                return job.settle(None, Away(self.why))
            try:
                if not job.only_asks:
                    # A session that is over is seen before a change is told.
                    self.session.state(seconds=max(0.001, job.until - time.monotonic()))
            except Fault as fault:
                self.drop()
                if last or fresh:
                    return job.settle(None, Away(str(fault)))
                continue
            if self.finish(job, last or fresh):
                return

    def finish(self, job: Job, last: bool) -> bool:
        """Whether the job is settled."""
        try:
            job.settle(job.work(Turn(self.session, job.until)), None)
        except Refused as refused:
            job.settle(None, refused)
        except Fault as fault:
            self.drop()
            if job.only_asks and not last:
                return False
            job.settle(None, Cut(str(fault)) if not job.only_asks else TooLate() if time.monotonic() >= job.until else Away(str(fault)))
        except Exception as fault:
            self.drop()
            job.settle(None, fault)
        return True

    def connect(self, until: float) -> bool:
        """Whether a session is there, or can be had by then."""
        if self.session is not None:
            return True
        if time.monotonic() < self.tried + AGAIN and not self.is_up.is_set():
            return False
        try:
            self.session = Session.lease(self.folder, seconds=max(0.001, until - time.monotonic()))
            self.leases += 1
        except Fault as fault:
            self.why, self.tried = str(fault), time.monotonic()
        return self.session is not None

    def drop(self) -> None:
        if self.session is not None:
            self.session.close(0.2)
        self.session = None


class Pool:
    """So many sessions at the pairs of a folder."""

    def __init__(self, folder: pathlib.Path, count: int, longest: int, is_up: threading.Event) -> None:
        self.longest = longest
        self.workers = [Worker(folder, is_up) for _ in range(count)]
        self.seconds = 0.01

    def start(self) -> None:
        for worker in self.workers:
            worker.start()

    def stop(self) -> None:
        for worker in self.workers:
            worker.jobs.put(None)

    @property
    def connected(self) -> int:
        return sum(worker.session is not None for worker in self.workers)

    @property
    def queued(self) -> int:
        return sum(worker.load for worker in self.workers)

    async def ask(self, work: Callable[[Turn], T], seconds: float, only_asks: bool = True) -> T:
        """Has the work done by the session with the shortest queue, within so many seconds."""
        worker = min(self.workers, key=lambda worker: (worker.session is None, worker.load))
        if worker.load >= self.longest:
            raise Busy(max(1, math.ceil(worker.load * self.seconds)))
        loop = asyncio.get_running_loop()
        began = time.monotonic()
        job = Job(work, began + seconds, only_asks, loop, loop.create_future())
        ahead = worker.count(1)
        worker.jobs.put(job)
        try:
            # The thread ends by itself at the same moment; a second more tells that it did not.
            return await asyncio.wait_for(job.future, seconds + 1)
        except asyncio.TimeoutError:
            raise TooLate() if job.give_up() or only_asks else Cut("no answer in time") from None
        except asyncio.CancelledError:
            job.give_up()
            raise
        finally:
            self.seconds += 0.1 * ((time.monotonic() - began) / ahead - self.seconds)


class Pools:
    """The sessions of a gateway: those for queries and that for looking at the server at pairs that only ask, and two for changes at others, where there is a folder of them."""

    def __init__(self, asking: pathlib.Path, changing: pathlib.Path | None, queries: int, longest: int) -> None:
        # Set while the server answers: then a lease is tried at once.
        self.is_up = threading.Event()
        self.queries = Pool(asking, queries, longest, self.is_up)
        self.changes = Pool(changing or asking, 2 if changing else 0, longest, self.is_up)
        self.watch = Pool(asking, 1, longest, self.is_up)
        self.all = {"queries": self.queries, "changes": self.changes, "watch": self.watch}

    def start(self) -> None:
        for pool in self.all.values():
            pool.start()

    def stop(self) -> None:
        for pool in self.all.values():
            pool.stop()
