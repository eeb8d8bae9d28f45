#!/usr/bin/env python3
"""Measures what routes take: `route S T` beside `dist S T` of the same random pair in two servers that differ in nothing else, and the memory that these hold between changes and at their peak; and
`route S T` beside `pgr_dijkstra` of pgRouting with its path, over the same network and for the same pairs. Times are of the server's processors, and behind a bar by the clock.

    tools/measure_routes.py [PROGRAM] [PAIRS] [SIDE | GR SS]

Network: a grid of SIDE by SIDE nodes (1,000) of which two roads in three are there, each both ways, or the texts GR and SS; without landmarks, and with those. PAIRS random pairs (100) are asked in
each, none twice. All routes are checked: they have the length of their `dist` and of pgRouting's path, and their arcs add up to it. Needs the built program, 4 GB of memory and a machine that has nothing else to do; for the peer
postgresql-15-pgrouting, which gets a cluster of its own in a folder that is thrown away."""
import os
import pathlib
import random
import re
import statistics
import subprocess
import sys
import tempfile
import time

from measure_shown import TOP, Session, changes, processor_time, texts_of

POSTGRES, PORT, PEER_PAIRS = pathlib.Path("/usr/lib/postgresql/15/bin"), 54398, 5
NONE, SOME = "without landmarks", "with landmarks"


def asked(session, line):
    """The seconds of the server's processors and by the clock from the line to the last of its answer, the length that is told, and the lengths of the arcs of a route."""
    worked, began = processor_time(session.server.pid), time.perf_counter()
    session.ask(line.encode())
    told = session.server.stdout.readline().split()
    count = int(told[4]) if told[0] == b"route" else 0
    lines = [session.server.stdout.readline() for _ in range(count)]
    took = processor_time(session.server.pid) - worked, time.perf_counter() - began
    return took, int(told[3]) if told[0] in (b"d", b"route") else None, [int(each.split()[4]) for each in lines]


def told_ratios(ours, theirs):
    """The median of the ratios of the pairs, with the least and the greatest, and the ratio of the sums."""
    told = []
    for which in (0, 1):
        each = [one[which] / other[which] for one, other in zip(ours, theirs)]
        told.append(f"{statistics.median(each):.4f} ({min(each):.4f} to {max(each):.4f}; of all {sum(one[which] for one in ours) / sum(other[which] for other in theirs):.4f})")
    return " | ".join(told)


def held(session, field):
    return next(int(line.split()[1]) / 1024 for line in open(f"/proc/{session.server.pid}/status") if line.startswith(field + ":"))


def change_all(sessions, draw, arcs):
    line = changes(draw, arcs, 1)
    for session in sessions:
        session.ask(line)
        session.ask(b"wait\n")


def beside_dist(program, folder, name, pairs, draw, arcs):
    """The same pairs to both, the one first and then the other."""
    distances, routes = (Session(program, str(folder / f"{name}.{number}.store"), 4) for number in (1, 2))
    ask = {distances: "dist", routes: "route"}
    for session in ask:
        asked(session, f"{ask[session]} 1 2\n")
    # Behind the first change a view has its arcs turned round, which serve routes too: from then on the two hold the same.
    change_all(ask, draw, arcs)
    times, counts = {distances: [], routes: []}, []
    for number, (source, target) in enumerate(pairs):
        answers = {}
        for session in (distances, routes) if number % 2 else (routes, distances):
            answers[session] = asked(session, f"{ask[session]} {source} {target}\n")
            times[session].append(answers[session][0])
        (_, length, _), (_, told, lengths) = answers[distances], answers[routes]
        if told != length or sum(lengths) != (length or 0):
            raise ValueError((source, target, length, told, sum(lengths)))
        counts.append(len(lengths))
    print(f"{name}, {len(pairs)} pairs, {statistics.median(counts):.0f} arcs a route: route of dist {told_ratios(times[routes], times[distances])}", flush=True)
    for _ in range(3):
        change_all(ask, draw, arcs)
        for source, target in draw.sample(pairs, min(10, len(pairs))):
            for session in ask:
                asked(session, f"{ask[session]} {source} {target}\n")
    time.sleep(1)
    figures = [f"{held(routes, field):.0f} MB with routes and {held(distances, field):.0f} MB without ({held(routes, field) / held(distances, field):.3f})" for field in ("VmRSS", "VmHWM")]
    print(f"{name}: between changes {figures[0]}, at the peak {figures[1]}", flush=True)
    distances.end()
    routes.end()


class Postgres:
    """A cluster of its own, with the arcs of a .gr text in its table `arc`."""

    def __init__(self, folder):
        self.folder = folder / "pg"
        self.folder.mkdir()
        if os.getuid() == 0:
            folder.chmod(0o755)
            subprocess.run(["chown", "postgres", self.folder], check=True)
        self.run(POSTGRES / "initdb", "-D", self.folder, "-A", "trust", "-U", "postgres", "--no-sync")

    def run(self, *words, text=None):
        owner = ["runuser", "-u", "postgres", "--"] if os.getuid() == 0 else []
        return subprocess.run([*owner, *map(str, words)], input=text, check=True, stdout=subprocess.PIPE, stderr=subprocess.STDOUT, text=True, cwd="/").stdout

    def __enter__(self):
        self.run(POSTGRES / "pg_ctl", "-D", self.folder, "-w", "-l", self.folder / "log", "-o", f"-p {PORT} -k {self.folder} -c listen_addresses='' -c shared_buffers=512MB -c fsync=off", "start")
        return self

    def __exit__(self, *_):
        self.run(POSTGRES / "pg_ctl", "-D", self.folder, "-w", "-m", "fast", "stop")

    def ask(self, text):
        return self.run("psql", "-h", self.folder, "-p", PORT, "-U", "postgres", "-qAt", "-v", "ON_ERROR_STOP=1", "postgres", text=text)

    def load(self, network, place):
        with open(network) as lines, open(place, "w") as table:
            for number, line in enumerate((line for line in lines if line.startswith("a ")), 1):
                table.write(f"{number}\t" + line[2:].replace(" ", "\t"))
        place.chmod(0o644)
        self.ask(f"create extension postgis; create extension pgrouting; create table arc(id bigint primary key, source bigint, target bigint, cost float8); copy arc from '{place}'; analyze arc;")
        return self.ask("select pgr_version()").strip()

    def connect(self):
        """A session, and the number of the process that serves it."""
        owner = ["runuser", "-u", "postgres", "--"] if os.getuid() == 0 else []
        words = [*owner, "psql", "-h", str(self.folder), "-p", str(PORT), "-U", "postgres", "-qAt", "-v", "ON_ERROR_STOP=1", "postgres"]
        self.session = subprocess.Popen(words, stdin=subprocess.PIPE, stdout=subprocess.PIPE, text=True, cwd="/")
        self.server = int(self.answer("select pg_backend_pid();")[0])

    def answer(self, text):
        self.session.stdin.write(f"{text}\n\\echo done\n")
        self.session.stdin.flush()
        return list(iter(lambda: self.session.stdout.readline().rstrip("\n"), "done"))

    def route(self, source, target):
        """The seconds as `asked` has them, and the lengths of the path's arcs."""
        worked, began = processor_time(self.server), time.perf_counter()
        told = self.answer(f"select cost from pgr_dijkstra('select id, source, target, cost from arc', {source}::bigint, {target}::bigint, true) where edge <> -1;")
        return (processor_time(self.server) - worked, time.perf_counter() - began), [int(line) for line in told]


def beside_pgrouting(program, folder, network, pairs):
    if not (POSTGRES / "postgres").exists():
        return print("left out: pgRouting (apt-get install postgresql-15-pgrouting)", file=sys.stderr)
    with Postgres(folder) as postgres:
        version = postgres.load(network, folder / "arcs.tsv")
        postgres.connect()
        # The first call finds the table on the disk, and is not counted.
        postgres.route(*pairs[0])
        sessions = {name: Session(program, str(folder / f"{name}.3.store"), 4) for name in (NONE, SOME)}
        ours, theirs = {name: [] for name in sessions}, []
        for session in sessions.values():
            asked(session, "route 1 2\n")
        for source, target in pairs:
            took, costs = postgres.route(source, target)
            theirs.append(took)
            for name, session in sessions.items():
                took, length, _ = asked(session, f"route {source} {target}\n")
                ours[name].append(took)
                if sum(costs) != (length or 0):
                    raise ValueError((source, target, length, sum(costs)))
        for name, session in sessions.items():
            session.end()
            print(f"{name}, {len(pairs)} pairs: route of pgr_dijkstra with its path {told_ratios(ours[name], theirs)}, pgRouting {version}", flush=True)
        postgres.session.communicate()


def main():
    program = sys.argv[1] if len(sys.argv) > 1 else str(TOP / "crates/roadmark/out/roadmark")
    count, draw = int(sys.argv[2]) if len(sys.argv) > 2 else 100, random.Random(1)
    # As the launcher and the units have it.
    os.environ.setdefault("MALLOC_ARENA_MAX", "1")
    with tempfile.TemporaryDirectory() as place:
        folder = pathlib.Path(place)
        network, marks, nodes, arcs = texts_of(sys.argv[3:], folder)
        (folder / "none.ss").write_text("p aux sp ss 0\n")
        print(f"{nodes} nodes, {arcs} arcs", flush=True)
        for name, text in ((NONE, folder / "none.ss"), (SOME, marks)):
            for number in (1, 2, 3):
                subprocess.run([program, "create", folder / f"{name}.{number}.store", network, text], check=True, stdout=subprocess.DEVNULL)
            beside_dist(program, folder, name, [(draw.randint(1, nodes), draw.randint(1, nodes)) for _ in range(count)], draw, arcs)
        beside_pgrouting(program, folder, network, [(draw.randint(1, nodes), draw.randint(1, nodes)) for _ in range(PEER_PAIRS)])


if __name__ == "__main__":
    main()
