#!/usr/bin/env python3
"""Measures what the lines beyond pairs take in a session: a table of 100 sources and 1,000 targets (100,000 nodes), `reach` that tells some 1,000 nodes beside a bare
round trip, beside its lines through `cat` and beside `reached`, and `suppose` beside a copy of as many bytes as the network takes.

    tools/measure_tables.py [PROGRAM] [ROUNDS]

Networks: grids of 100,000 and 1,000,000 nodes of which two roads in three are there, each both ways. Rows made outside can be set beside the first line's
seconds. Needs the built program and a machine that has nothing else to do."""
import pathlib
import random
import statistics
import subprocess
import sys
import tempfile
import time

from measure_shown import TOP, Session, write_texts

LINES = 1000

def rest(session, first):
    """Reads an answer to its end: its first line is `v V` or `s V`, and the second tells how many lines follow, or is one line of a table."""
    count = int(first.split()[-1])
    for _ in range(count):
        session.server.stdout.readline()

def timed(session, text, lines):
    """Seconds from the line to the last of so many lines of its answer."""
    began = time.perf_counter()
    session.ask(text)
    for _ in range(lines):
        session.server.stdout.readline()
    return time.perf_counter() - began

def table(program, folder, nodes, draw, rounds):
    session = Session(program, str(folder / "grid.store"), 4)
    session.ask(b"dist 1 2\n")
    session.server.stdout.readline()
    times = []
    for _ in range(rounds):
        sources, targets = draw.sample(range(1, nodes + 1), 100), draw.sample(range(1, nodes + 1), LINES)
        line = f"table 100 {LINES} {' '.join(map(str, sources + targets))}\n".encode()
        times.append(timed(session, line, 100 * LINES))
    session.end()
    print(f"{nodes} nodes: a table of 100 by {LINES}: {statistics.median(times):.3f} s, {statistics.median(times) / 100 * 1000:.3f} ms a source", flush=True)

def limit_for(session, word, node):
    """A limit within which the node reaches about 1,000 nodes, or is reached from them, and how many."""
    low, high = 0, 1 << 40
    while True:
        limit = (low + high) // 2
        session.ask(f"{word} {node} {limit}\n".encode())
        told = session.server.stdout.readline()
        count = int(told.split()[-1])
        rest(session, told)
        if high - low <= 1 or LINES * 9 // 10 <= count <= LINES * 11 // 10:
            return limit, count
        low, high = (limit, high) if count < LINES else (low, limit)

def echoed(echo, lines):
    """Seconds for these lines through `cat`, line by line to the last."""
    began = time.perf_counter()
    echo.stdin.write(lines)
    echo.stdin.flush()
    for _ in range(lines.count(b"\n")):
        echo.stdout.readline()
    return time.perf_counter() - began

def near(session, nodes, draw, rounds):
    bare = statistics.median(timed(session, b"dist 0 0\n", 1) for _ in range(200))
    times, counts, lines_alone = {"reach": [], "reached": []}, [], []
    echo = subprocess.Popen(["cat"], stdin=subprocess.PIPE, stdout=subprocess.PIPE)
    while len(counts) < rounds:
        node = draw.randint(1, nodes)
        limits = {word: limit_for(session, word, node) for word in times}
        if all(LINES * 9 // 10 <= count <= LINES * 11 // 10 for _, count in limits.values()):
            for word, (limit, count) in limits.items():
                times[word].append(min(timed(session, f"{word} {node} {limit}\n".encode(), count + 1) for _ in range(3)) / count)
            limit, count = limits["reach"]
            counts.append(count)
            session.ask(f"reach {node} {limit}\n".encode())
            lines = b"".join(session.server.stdout.readline() for _ in range(count + 1))
            lines_alone.append(min(echoed(echo, lines) for _ in range(3)))
    echo.stdin.close()
    took, turned, listed = statistics.median(times["reach"]), statistics.median(times["reached"]), statistics.median(lines_alone)
    count = statistics.median(counts)
    print(f"{nodes} nodes: reach of {count:.0f} nodes {took * count / bare:.1f} bare round trips, its lines through cat {listed / bare:.1f}", flush=True)
    print(f"{nodes} nodes: reached of as many {turned / took:.2f} of reach", flush=True)

def suppose(session, arcs, draw, rounds):
    network = bytearray(16 * arcs)
    copies, times = [], []
    for _ in range(rounds):
        began = time.perf_counter()
        copy = bytes(network)
        copies.append(time.perf_counter() - began)
        del copy
        times.append(timed(session, b"suppose\nclose %d\nend\n" % draw.randint(1, arcs), 0))
    session.ask(b"forget\n")
    print(f"suppose: {statistics.median(times) / statistics.median(copies):.1f} of a copy of the network's {len(network)} bytes ({statistics.median(times):.3f} s)", flush=True)

def main():
    program = sys.argv[1] if len(sys.argv) > 1 else str(TOP / "crates/roadmark/out/roadmark")
    rounds, draw = int(sys.argv[2]) if len(sys.argv) > 2 else 7, random.Random(1)
    for side in (316, 1000):
        with tempfile.TemporaryDirectory() as place:
            folder, nodes = pathlib.Path(place), side * side
            arcs, _ = write_texts(folder, side)
            (folder / "none.ss").write_text("p aux sp ss 0\n")
            subprocess.run([program, "create", folder / "grid.store", folder / "grid.gr", folder / "none.ss"], check=True, stdout=subprocess.DEVNULL)
            if side < 1000:
                table(program, folder, nodes, draw, rounds)
                continue
            session = Session(program, str(folder / "grid.store"), 4)
            near(session, nodes, draw, rounds)
            suppose(session, arcs, draw, rounds)
            session.end()

if __name__ == "__main__":
    main()
