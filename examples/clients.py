#!/usr/bin/env python3
"""Clients of one server, over a local socket behind which examples/attach.sh stands: four connections that ask at once, and a fifth that changes the network meanwhile.
It needs five pairs of pipes: a connection that finds none free waits, and after ten seconds without an answer the script gives up. In the end it opens the arc again.

    examples/clients.py SOCKET        (docs/OPERATING.md, "Many clients", has the server and the socket)
"""
import concurrent.futures
import pathlib
import queue
import sys

sys.path.insert(0, str(pathlib.Path(__file__).resolve().parent.parent / "client"))
from roadmark import Fault, Late, Length, Refused, Session

PATIENCE = 10

class Clients:
    """Connections that are kept, and lent to one caller at a time."""

    def __init__(self, path: str, count: int) -> None:
        self.free: queue.SimpleQueue[Session] = queue.SimpleQueue()
        for _ in range(count):
            self.free.put(Session.connect(path, PATIENCE))

    def distance(self, pair: tuple[int, int]) -> tuple[int, Length]:
        session = self.free.get()
        try:
            return session.distance(*pair)
        finally:
            self.free.put(session)

    def close(self) -> None:
        while not self.free.empty():
            self.free.get().close()

def run(path: str) -> None:
    """Asks for all pairs of nodes before and after arc 7 is closed, and opens it again."""
    clients = Clients(path, 4)
    pairs = [(source, target) for source in range(1, 7) for target in range(1, 7)]
    with concurrent.futures.ThreadPoolExecutor(8) as callers:
        before = list(callers.map(clients.distance, pairs))
        writer = Session.connect(path, PATIENCE)
        # A query first: where no pair is free, no change has been sent when the script gives up.
        writer.distance(1, 6)
        number = writer.change("close 7")
        print("close 7: durable as version", number)
        print("shown: version", writer.wait())
        after = list(callers.map(clients.distance, pairs))
    print("from 1 to 6 (version, length):", before[pairs.index((1, 6))], "and then", after[pairs.index((1, 6))])
    print(sum(length is not None for _, length in after), "of", len(pairs), "pairs have a walk;", "all in version", number, "now:", all(version == number for version, _ in after))
    print("reopen 7: durable as version", writer.change("reopen 7"))
    writer.close()
    clients.close()

def main() -> int | str:
    if len(sys.argv) != 2:
        print("usage: examples/clients.py SOCKET", file=sys.stderr)
        return 2
    try:
        run(sys.argv[1])
    except Late:
        return f"clients: no answer within {PATIENCE} seconds: are there five pairs, and all of them free?"
    except Refused as refused:
        return f"clients: {refused}: is arc 7 open, and the network that of examples/six.gr?"
    except Fault as fault:
        return f"clients: {fault}"
    return 0

if __name__ == "__main__":
    sys.exit(main())
