#!/usr/bin/env python3
"""Measures how long a change takes from durable to shown, as a part of the time that a view takes that is made anew: for 1, 10 and 253 arcs that change at once.

    tools/measure_shown.py [PROGRAM] [SIDE] [ROUNDS]

Network: a grid of SIDE by SIDE nodes (1,000 where none is given) of which two roads in three are there, each both ways, with 16 landmarks. A view that is made
anew is the first one: from the start of `serve` to its first answer, less opening alone (`ask` of no pair). What memory `serve` holds is told too: before the first
change, between changes, and at its peak; run it once more with MALLOC_MMAP_THRESHOLD_=1048576 in the environment, by which the C library gives large pieces back.
Needs the built program, 4 GB of memory for a million nodes, and a machine that has nothing else to do."""
import pathlib
import random
import statistics
import subprocess
import sys
import tempfile
import time

TOP = pathlib.Path(__file__).resolve().parent.parent
COUNTS, LANDMARKS, THIRDS = (1, 10, 253), 16, 0.643

def write_texts(folder, side):
    """The arcs' count."""
    draw, lines = random.Random(1), []
    for here in range(1, side * side + 1):
        beside = ([here + 1] if here % side else []) + ([here + side] if here + side <= side * side else [])
        for other in beside:
            if draw.random() < THIRDS:
                lines += [f"a {here} {other} {draw.randint(100, 10000)}", f"a {other} {here} {draw.randint(100, 10000)}"]
    (folder / "grid.gr").write_text(f"p sp {side * side} {len(lines)}\n" + "\n".join(lines) + "\n")
    step = side // 4
    marks = sorted((step // 2 + step * (n // 4)) * side + step // 2 + step * (n % 4) + 1 for n in range(LANDMARKS))
    (folder / "grid.ss").write_text(f"p aux sp ss {len(marks)}\n" + "".join(f"s {mark}\n" for mark in marks))
    (folder / "none.p2p").write_text("p aux sp p2p 0\n")
    return len(lines), marks

def texts_of(words, folder):
    """The texts of the network and its landmarks, those of the two files that are named or of a grid with this side or 1,000, the number of nodes, and that of arcs."""
    network, marks = folder / "grid.gr", folder / "grid.ss"
    if len(words) > 1:
        network, marks = (pathlib.Path(word) for word in words)
    else:
        write_texts(folder, int(words[0]) if words else 1000)
    with open(network) as lines:
        nodes, arcs = next(line.split()[2:4] for line in lines if line.startswith("p "))
    return network, marks, int(nodes), int(arcs)

def processor_time(process):
    """The seconds of processor time that a process has had, to the nanosecond, with those of threads that have ended."""
    return time.clock_gettime(~process << 3 | 2)

class Session:
    def __init__(self, program, store, workers):
        self.server = subprocess.Popen([program, "serve", store, "--workers", str(workers)], stdin=subprocess.PIPE, stdout=subprocess.PIPE)

    def ask(self, text):
        """The last line of the answer, and when it was there."""
        self.server.stdin.write(text)
        self.server.stdin.flush()
        line = self.server.stdout.readline()
        return line, time.perf_counter()

    def end(self):
        self.server.stdin.close()
        self.server.wait()

def changes(draw, arcs, count):
    lines = [b"set %d %d\n" % (draw.randint(1, arcs), draw.randint(100, 10000)) for _ in range(count)]
    return lines[0] if count == 1 else b"begin\n" + b"".join(lines) + b"end\n"

def tell_memory(session, nodes, workers, when, field):
    """Tells a figure of the server's memory: VmRSS is what it holds, VmHWM the most that it held."""
    held = next(int(line.split()[1]) * 1024 for line in open(f"/proc/{session.server.pid}/status") if line.startswith(field + ":"))
    print(f"{workers} workers: {when} {held / 2**20:.0f} MB, {held / nodes:.0f} bytes a node", flush=True)

def measure(program, folder, workers, nodes, arcs, marks, rounds):
    store, draw = str(folder / "grid.store"), random.Random(workers)
    began = time.perf_counter()
    subprocess.run([program, "ask", store, folder / "none.p2p"], check=True, stdout=subprocess.DEVNULL)
    opening, began = time.perf_counter() - began, time.perf_counter()
    session = Session(program, store, workers)
    session.ask(b"from %d 1\n" % marks[0])
    session.server.stdout.readline()
    anew = time.perf_counter() - began - opening
    print(f"{workers} workers: a view anew: {anew:.2f} s, {anew / opening:.1f} of opening", flush=True)
    tell_memory(session, nodes, workers, "before the first change", "VmRSS")
    for count in COUNTS:
        times = []
        for _ in range(rounds):
            answer, durable = session.ask(changes(draw, arcs, count))
            if not answer.startswith(b"ok"):
                raise ValueError(answer)
            _, shown = session.ask(b"wait\n")
            times.append((shown - durable) / anew)
            time.sleep(0.05)
        print(f"{workers} workers: {count} arcs: median {statistics.median(times):.3f} of it ({min(times):.3f} to {max(times):.3f})", flush=True)
    tell_memory(session, nodes, workers, "between changes", "VmRSS")
    tell_memory(session, nodes, workers, "peak", "VmHWM")
    session.end()

def main():
    program = sys.argv[1] if len(sys.argv) > 1 else str(TOP / "crates/roadmark/out/roadmark")
    side = int(sys.argv[2]) if len(sys.argv) > 2 else 1000
    rounds = int(sys.argv[3]) if len(sys.argv) > 3 else 9
    with tempfile.TemporaryDirectory() as place:
        folder = pathlib.Path(place)
        arcs, marks = write_texts(folder, side)
        print(f"{side * side} nodes, {arcs} arcs, {len(marks)} landmarks", flush=True)
        subprocess.run([program, "create", folder / "grid.store", folder / "grid.gr", folder / "grid.ss"], check=True, stdout=subprocess.DEVNULL)
        for workers in (1, 4):
            measure(program, folder, workers, side * side, arcs, marks, rounds)

if __name__ == "__main__":
    main()
