#!/usr/bin/env python3
"""Measures what pairs of one call take: by 17 sources in the order of their targets and in any order beside the same pairs sorted by source, 2,000 sources to 3
targets beside 3 to 2,000, 16 sources on all processors beside one, by the clock and in processor time, and a query of neighbours in a session beside a bare round trip.

    tools/measure_pairs.py [PROGRAM] [ROUNDS]

Networks: grids of 100,000 and 1,000,000 nodes of which two roads in three are there, each both ways. What a call of no pair takes, the reading of the network, is
taken off where the line says searches alone. Needs the built program, taskset, and a machine that has nothing else to do."""
import os
import pathlib
import random
import statistics
import subprocess
import sys
import tempfile
import time

from measure_shown import TOP, Session, write_texts

def write_pairs(file, pairs):
    file.write_text(f"p aux sp p2p {len(pairs)}\n" + "".join(f"q {one} {other}\n" for one, other in pairs))
    return file

def took(words):
    """Seconds by the clock and of processor time."""
    before, began = os.times(), time.perf_counter()
    subprocess.run(words, check=True, stdout=subprocess.DEVNULL)
    after = os.times()
    return time.perf_counter() - began, after.children_user + after.children_system - before.children_user - before.children_system

def medians(calls, rounds):
    """The medians of each call's two times, the calls taken in turn."""
    times = [[took(words) for words in calls] for _ in range(rounds)]
    return [[statistics.median(each[at][which] for each in times) for which in (0, 1)] for at in range(len(calls))]

def by_order(program, folder, nodes, draw, rounds):
    sources, targets = draw.sample(range(1, nodes + 1), 17), draw.sample(range(1, nodes + 1), 60)
    pairs = [(source, target) for source in sources for target in targets]
    turned = sorted(pairs, key=lambda pair: pair[1])
    mixed = draw.sample(pairs, len(pairs))
    many, few = draw.sample(range(1, nodes + 1), 2000), draw.sample(range(1, nodes + 1), 3)
    lists = [pairs, turned, mixed, [(one, other) for other in few for one in many], [(one, other) for one in few for other in many]]
    files = [write_pairs(folder / f"{at}.p2p", each) for at, each in enumerate(lists)]
    told = [clock for clock, _ in medians([[program, "batch", folder / "grid.gr", file] for file in files], rounds)]
    print(f"{nodes} nodes, 17 sources: by target {told[1] / told[0]:.2f}, in any order {told[2] / told[0]:.2f} of sorted by source", flush=True)
    print(f"{nodes} nodes: 2,000 sources to 3 targets {told[3] / told[4]:.2f} of 3 to 2,000", flush=True)

def by_processors(program, folder, nodes, draw, rounds):
    file = write_pairs(folder / "sixteen.p2p", [(source, draw.randint(1, nodes)) for source in draw.sample(range(1, nodes + 1), 16)])
    none = write_pairs(folder / "none.p2p", [])
    words = [[program, "batch", folder / "grid.gr", each] for each in (file, none)]
    one = ["taskset", "-c", "0"]
    all_of, all_none, one_of, one_none = medians([words[0], words[1], one + words[0], one + words[1]], rounds)
    searches = [(all_of[at] - all_none[at]) / (one_of[at] - one_none[at]) for at in (0, 1)]
    print(f"{nodes} nodes, 16 sources, {os.cpu_count()} processors to one, searches alone: {searches[0]:.2f} by the clock, {searches[1]:.2f} of processor time", flush=True)
    print(f"the whole call: {all_of[0] / one_of[0]:.2f} by the clock", flush=True)

def neighbours(program, folder, nodes, draw):
    """Each source is asked once, and so that its search ends at a neighbour: the next node of the list of arcs."""
    subprocess.run([program, "create", folder / "grid.store", folder / "grid.gr", folder / "none.ss"], check=True, stdout=subprocess.DEVNULL)
    ends = [line.split()[1:3] for line in open(folder / "grid.gr") if line.startswith("a ")]
    session = Session(program, str(folder / "grid.store"), 1)
    session.ask(b"dist 1 2\n")
    session.server.stdout.readline()
    asked, bare = [], []
    for tail, head in draw.sample(ends, 200):
        began = time.perf_counter()
        session.ask(f"dist {tail} {head}\n".encode())
        asked.append(time.perf_counter() - began)
        session.server.stdout.readline()
        began = time.perf_counter()
        session.ask(b"dist 0 0\n")
        bare.append(time.perf_counter() - began)
        session.server.stdout.readline()
    session.end()
    print(f"{nodes} nodes: dist of neighbours {statistics.median(asked) / statistics.median(bare):.1f} of a round trip that is refused", flush=True)

def main():
    program = sys.argv[1] if len(sys.argv) > 1 else str(TOP / "crates/roadmark/out/roadmark")
    rounds, draw = int(sys.argv[2]) if len(sys.argv) > 2 else 5, random.Random(1)
    for side in (316, 1000):
        with tempfile.TemporaryDirectory() as place:
            folder, nodes = pathlib.Path(place), side * side
            write_texts(folder, side)
            (folder / "none.ss").write_text("p aux sp ss 0\n")
            if side < 1000:
                by_order(program, folder, nodes, draw, rounds)
            else:
                by_processors(program, folder, nodes, draw, rounds)
                neighbours(program, folder, nodes, draw)

if __name__ == "__main__":
    main()
