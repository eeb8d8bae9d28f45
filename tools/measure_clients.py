#!/usr/bin/env python3
"""Measures one server with many clients: queries and changes a second by 1, 4 and 16 clients as multiples of one, changes beside SQLite's write-ahead log with as many
connections, how long a `from` takes beside a client that searches, and what sixty silent clients take of memory that asked at versions of their own.

    tools/measure_clients.py [PROGRAM] [SECONDS]

Each client is a process that sends a line and reads its answer before the next. Network: a grid of 100,000 nodes, with 16 landmarks. Where socat is there each is
measured over a socket too. Needs the built program; the machine should have nothing else to do."""
import multiprocessing
import os
import pathlib
import random
import shutil
import socket
import sqlite3
import subprocess
import sys
import tempfile
import time

TOP = pathlib.Path(__file__).resolve().parent.parent
SIDE, LANDMARKS, COUNTS = 316, 16, (1, 4, 16)
NODES = SIDE * SIDE
ARCS = 4 * SIDE * (SIDE - 1)
KINDS = ("from", "kept", "search", "set")

def write_texts(folder):
    """A grid whose arcs lead both ways, each of a length of its own, and landmarks far from each other."""
    draw = random.Random(1)
    arcs = []
    for row in range(SIDE):
        for column in range(SIDE):
            here = row * SIDE + column + 1
            beside = ([here + 1] if column + 1 < SIDE else []) + ([here + SIDE] if row + 1 < SIDE else [])
            for other in beside:
                arcs += [(here, other), (other, here)]
    lines = [f"a {tail} {head} {draw.randint(100, 10000)}" for tail, head in arcs]
    (folder / "grid.gr").write_text(f"p sp {NODES} {len(arcs)}\n" + "\n".join(lines) + "\n")
    marks = landmarks()
    (folder / "grid.ss").write_text(f"p aux sp ss {len(marks)}\n" + "".join(f"s {mark}\n" for mark in marks))

def landmarks():
    step = SIDE // 4
    return [(step // 2 + step * (n // 4)) * SIDE + step // 2 + step * (n % 4) + 1 for n in range(LANDMARKS)]

class Connection:
    """Lines to a server and answers from it, by two pipes or one socket."""

    def __init__(self, place):
        if isinstance(place, tuple):
            self.input = os.open(place[0], os.O_WRONLY)
            self.output = os.open(place[1], os.O_RDONLY)
        else:
            self.socket = socket.socket(socket.AF_UNIX)
            self.socket.connect(place)
            self.input = self.output = self.socket.fileno()
        self.read = b""

    def line(self):
        while b"\n" not in self.read:
            more = os.read(self.output, 4096)
            if not more:
                raise EOFError("the server closed the connection")
            self.read += more
        line, self.read = self.read.split(b"\n", 1)
        return line

    def ask(self, line):
        """The last line of the answer."""
        os.write(self.input, line)
        answer = self.line()
        return self.line() if answer.startswith(b"v ") else answer

def line_of(kind, draw, marks, number):
    if kind == "from":
        return b"from %d %d\n" % (draw.choice(marks), draw.randint(1, NODES))
    if kind == "kept":
        return b"dist %d %d\n" % (1 + 997 * draw.randint(0, 3), draw.randint(1, NODES))
    if kind == "search":
        return b"dist %d %d\n" % (draw.randint(1, NODES), draw.randint(1, NODES))
    return b"set %d %d\n" % (1 + (number * 7919) % ARCS, draw.randint(100, 10000))

def client(place, kind, seed, seconds, ready, told):
    draw, marks, times = random.Random(seed), landmarks(), []
    connection = Connection(place)
    connection.ask(line_of(kind, draw, marks, seed))
    ready.wait()
    end = time.perf_counter() + seconds
    while (now := time.perf_counter()) < end:
        answer = connection.ask(line_of(kind, draw, marks, seed * 100000 + len(times)))
        if answer.startswith(b"no"):
            raise ValueError(answer)
        times.append(time.perf_counter() - now)
    told.put((kind, len(times), sorted(times)))

def connection_of_sqlite(file, seed, seconds, ready, told):
    draw = random.Random(seed)
    base = sqlite3.connect(file, timeout=60, isolation_level=None)
    base.execute("PRAGMA synchronous=FULL")
    ready.wait()
    end, count = time.perf_counter() + seconds, 0
    while time.perf_counter() < end:
        base.execute("UPDATE arcs SET length = ? WHERE number = ?", (draw.randint(100, 10000), draw.randint(1, ARCS)))
        count += 1
    told.put(("sqlite", count, []))

def run(works, seconds):
    """What each of these processes told."""
    ready, told = multiprocessing.Barrier(len(works)), multiprocessing.Queue()
    made = [multiprocessing.Process(target=work, args=(*given, seconds, ready, told)) for work, given in works]
    for it in made:
        it.start()
    answers = [told.get(timeout=seconds + 120) for _ in made]
    for it in made:
        it.join()
    return answers

def rate(answers, kind, seconds):
    return sum(count for told, count, _ in answers if told == kind) / seconds

def sqlite_rates(folder, seconds):
    file = str(folder / "arcs.sqlite")
    base = sqlite3.connect(file)
    base.execute("PRAGMA journal_mode=WAL")
    base.execute("CREATE TABLE arcs (number INTEGER PRIMARY KEY, length INTEGER NOT NULL)")
    base.executemany("INSERT INTO arcs VALUES (?, ?)", ((number, 100) for number in range(1, ARCS + 1)))
    base.commit()
    base.close()
    return {count: rate(run([(connection_of_sqlite, (file, seed)) for seed in range(count)], seconds), "sqlite", seconds) for count in COUNTS}

def measure(way, place, seconds, sqlite):
    rates = {}
    for kind in KINDS:
        for count in COUNTS:
            time.sleep(0.5)
            rates[kind, count] = rate(run([(client, (place(n), kind, 1000 * count + n)) for n in range(count)], seconds), kind, seconds)
        one = rates[kind, 1]
        print(f"{way}: {kind}: one client {one:.0f} a second; " + ", ".join(f"{count} clients {rates[kind, count] / one:.2f} of it" for count in COUNTS[1:]), flush=True)
    print(f"{way}: set beside SQLite: " + ", ".join(f"{count} {rates['set', count] / sqlite[count]:.2f}" for count in COUNTS), flush=True)
    alone = run([(client, (place(0), "from", 5))], seconds)
    beside = run([(client, (place(0), "from", 6)), (client, (place(1), "search", 7))], seconds)
    late = [times[len(times) * 99 // 100] for answers in (alone, beside) for kind, _, times in answers if kind == "from"]
    print(f"{way}: the slowest in a hundred of `from` beside a search: {late[1] / late[0]:.2f} of alone", flush=True)

def peak_of(pid):
    return next(int(line.split()[1]) * 1024 for line in open(f"/proc/{pid}/status") if line.startswith("VmHWM"))

def peak(program, store, names, count, arenas):
    """The greatest memory of a server whose clients, so many in turn, each change the network, wait, ask, and stay silent: sixty rounds together."""
    server = subprocess.Popen([program, "serve", store, *names], stdin=subprocess.PIPE, stdout=subprocess.DEVNULL, env={**os.environ, **arenas})
    clients = [Connection(pair) for pair in list(zip(names[::2], names[1::2]))[:count]]
    for round in range(60):
        client = clients[round % count]
        client.ask(b"set %d %d\n" % (1 + round, 100 + round))
        os.write(client.input, b"wait\n")
        client.line()
        client.ask(b"dist %d %d\n" % (1 + 1009 * round, NODES - round))
    most = peak_of(server.pid)
    server.stdin.write(b"quit\n")
    server.stdin.close()
    server.wait(60)
    return most

def memory(program, folder, store):
    names = subprocess.run([TOP / "examples/pairs.sh", folder / "sixty", "60"], check=True, capture_output=True, text=True).stdout.split()
    for said, arenas in (("as it is", {}), ("with MALLOC_ARENA_MAX=2", {"MALLOC_ARENA_MAX": "2"})):
        one, sixty = (peak(program, store, names, count, arenas) for count in (1, 60))
        print(f"memory, {said}: sixty silent clients take {(sixty - one) / NODES:.0f} bytes a node more than one that asked as much, {sixty / one:.2f} of it", flush=True)

def main():
    words = sys.argv[1:]
    program = pathlib.Path(words[0] if words else TOP / "crates/roadmark/out/roadmark").resolve()
    seconds = float(words[1]) if len(words) > 1 else 3.0
    folder = pathlib.Path(tempfile.mkdtemp(prefix="roadmark-clients-"))
    try:
        write_texts(folder)
        store = folder / "grid.store"
        subprocess.run([program, "create", store, folder / "grid.gr", folder / "grid.ss", "--journal", "65536"], check=True, stdout=subprocess.DEVNULL)
        names = subprocess.run([TOP / "examples/pairs.sh", folder / "pipes", "16"], check=True, capture_output=True, text=True).stdout.split()
        memory(program, folder, store)
        sqlite = sqlite_rates(folder, seconds)
        server = subprocess.Popen([program, "serve", store, *names], stdin=subprocess.PIPE, stdout=subprocess.PIPE)
        server.stdin.write(b"wait\n")
        server.stdin.flush()
        server.stdout.readline()
        pairs = list(zip(names[::2], names[1::2]))
        measure("pipes", lambda n: pairs[n], seconds, sqlite)
        if shutil.which("socat"):
            path = str(folder / "socket")
            front = subprocess.Popen(["socat", f"UNIX-LISTEN:{path},fork,backlog=64", f"EXEC:{TOP / 'examples/attach.sh'} {folder / 'pipes'}"], stderr=subprocess.DEVNULL)
            time.sleep(1)
            measure("socat", lambda n: path, seconds, sqlite)
            front.terminate()
        server.stdin.write(b"quit\n")
        server.stdin.close()
        print("the server ended with", server.wait(60))
    finally:
        shutil.rmtree(folder, ignore_errors=True)

if __name__ == "__main__":
    main()
