#!/usr/bin/env python3
"""A client of `roadmark serve`: closes an arc, waits until that is shown, asks, and reads refusals.

    examples/client.py STORE        (made by: ./roadmark create six.store examples/six.gr examples/six.ss)
"""
import pathlib
import sys

TOP = pathlib.Path(__file__).resolve().parent.parent
sys.path.insert(0, str(TOP / "client"))
from roadmark import Fault, Refused, Session

def run(session: Session) -> None:
    print("from 1 to 6 (version, length):", session.distance(1, 6))
    for line in ("close 7", "close 7"):
        try:
            print(f"{line}: durable as version", session.change(line))
        except Refused as refused:
            print(f"{line}: refused, code", refused.code)
    print("shown: version", session.wait())
    print("from 1 to 6 (version, length):", session.distance(1, 6))
    print("reopen 7: durable as version", session.change("reopen 7"))

def main() -> int:
    if len(sys.argv) != 2:
        print("usage: examples/client.py STORE", file=sys.stderr)
        return 2
    try:
        with Session.start([TOP / "roadmark", "serve", sys.argv[1]]) as session:
            run(session)
            return session.close() or 0
    except Fault as fault:
        print(f"client: {fault}", file=sys.stderr)
        return 1

if __name__ == "__main__":
    sys.exit(main())
