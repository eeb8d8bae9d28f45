#!/usr/bin/env python3
"""Measures what settings of the C library's allocator do to `serve` under changes: the memory that it holds at rest and its peak, and what they cost in time.

    tools/measure_memory.py [PROGRAM] [ROUNDS] [SIDE | GR SS] [SETTING] ..

A SETTING is a list of NAME=VALUE with commas between; where none is given, those of SETTINGS are measured. A server without any setting, one for each, and a second one without any, to see how
far two alike differ, run side by side, each on a store of its own, with four row workers. Network: a grid of SIDE by SIDE nodes (1,000) of which two roads in three are there, each both ways,
with 16 landmarks, or the texts GR and SS. In each of ROUNDS rounds (9) each server in turn gets the same changes (1, 10 and 253 arcs at once, each waited for until it is shown) and the same
queries. Told are medians of the ratios to the first server in the same round, of processor time and behind a bar by the clock, and MB. Needs the built program, 8 GB of memory and a machine that has nothing else to do."""
import os
import pathlib
import random
import shutil
import statistics
import subprocess
import sys
import tempfile
import time

from measure_shown import COUNTS, TOP, changes, processor_time, texts_of

SETTINGS = ("MALLOC_ARENA_MAX=1", "MALLOC_ARENA_MAX=2", "MALLOC_MMAP_THRESHOLD_=1048576", "MALLOC_ARENA_MAX=2,MALLOC_MMAP_THRESHOLD_=1048576")
REACHED, PAIRS = 1000, 5


class Server:
    """A server with these settings, and for each kind of line the seconds of processor time and by the clock."""

    def __init__(self, program: str, store: pathlib.Path, setting: str) -> None:
        self.setting, self.times = setting, {}
        own = dict(each.split("=") for each in setting.split(",")) if setting else {}
        clean = {name: value for name, value in os.environ.items() if not name.startswith("MALLOC_")}
        self.server = subprocess.Popen([program, "serve", store, "--workers", "4"], stdin=subprocess.PIPE, stdout=subprocess.PIPE, env={**clean, **own})

    def lines(self, text: str, count: int) -> list[bytes]:
        self.server.stdin.write(text.encode())
        self.server.stdin.flush()
        return [self.server.stdout.readline() for _ in range(count)]

    def took(self, what: str, text: str, count: int) -> None:
        worked, began = processor_time(self.server.pid), time.perf_counter()
        told = self.lines(text, count)
        if told[0].startswith(b"no"):
            raise ValueError(text)
        self.times.setdefault(what, []).append((processor_time(self.server.pid) - worked, time.perf_counter() - began))

    def held(self, field: str) -> float:
        return next(int(line.split()[1]) / 1024 for line in open(f"/proc/{self.server.pid}/status") if line.startswith(field + ":"))


def limit_for(server: Server, node: int) -> tuple[int, int]:
    """A limit within which the node reaches some thousand nodes, and how many."""
    low, high = 0, 1 << 40
    while True:
        limit = (low + high) // 2
        count = int(server.lines(f"reach {node} {limit}\n", 2)[1].split()[-1])
        for _ in range(count):
            server.server.stdout.readline()
        if high - low <= 1 or REACHED * 9 // 10 <= count <= REACHED * 11 // 10:
            return limit, count
        low, high = (limit, high) if count < REACHED else (low, limit)


def one_round(servers: list[Server], number: int, nodes: int, arcs: int) -> None:
    """The same changes and queries to each. Who is first in the round goes round."""
    draw = random.Random(number)
    groups = [changes(draw, arcs, count) for count in COUNTS]
    pairs = [(draw.randint(1, nodes), draw.randint(1, nodes)) for _ in range(PAIRS)]
    targets = draw.sample(range(1, nodes + 1), 101)
    limit = None
    for server in servers[number % len(servers):] + servers[:number % len(servers)]:
        for count, group in zip(COUNTS, groups):
            server.took(f"{count} arcs shown", f"{group.decode()}wait\n", 2)
        limit = limit or limit_for(server, targets[0])
        for one, other in pairs:
            server.took("dist", f"dist {one} {other}\n", 2)
        server.took("row", f"table 1 100 {' '.join(map(str, targets))}\n", 101)
        server.took("reach", f"reach {targets[0]} {limit[0]}\n", limit[1] + 2)
        time.sleep(0.05)


def tell(servers: list[Server]) -> None:
    base = servers[0]
    for server in servers:
        ratios = []
        for what, times in server.times.items():
            # A round has so many times of each kind, which are added up before they are compared.
            each = PAIRS if what == "dist" else 1
            told = [statistics.median(sum(own[which] for own in times[at:at + each]) / sum(other[which] for other in base.times[what][at:at + each]) for at in range(0, len(times), each)) for which in (0, 1)]
            ratios.append(f"{what} {told[0]:.2f}|{told[1]:.2f}")
        print(f"{server.setting or 'none'}: {server.held('VmRSS'):.0f} MB at rest, {server.held('VmHWM'):.0f} MB peak; {', '.join(ratios)}", flush=True)


def main() -> None:
    program = sys.argv[1] if len(sys.argv) > 1 else str(TOP / "crates/roadmark/out/roadmark")
    rounds = int(sys.argv[2]) if len(sys.argv) > 2 else 9
    with tempfile.TemporaryDirectory() as place:
        folder = pathlib.Path(place)
        network, marks, nodes, arcs = texts_of([word for word in sys.argv[3:] if "=" not in word], folder)
        subprocess.run([program, "create", folder / "0.store", network, marks], check=True, stdout=subprocess.DEVNULL)
        settings = ["", *([word for word in sys.argv[3:] if "=" in word] or SETTINGS), ""]
        for at in range(1, len(settings)):
            shutil.copyfile(folder / "0.store", folder / f"{at}.store")
        servers = []
        try:
            for at, setting in enumerate(settings):
                servers.append(Server(program, folder / f"{at}.store", setting))
                servers[-1].lines("wait\n", 1)
            print(f"{nodes} nodes, {arcs} arcs: before the first change {[round(server.held('VmRSS')) for server in servers]} MB", flush=True)
            for number in range(rounds):
                one_round(servers, number, nodes, arcs)
            time.sleep(2)
            tell(servers)
        finally:
            for server in servers:
                server.server.stdin.close()
                server.server.wait()


if __name__ == "__main__":
    main()
