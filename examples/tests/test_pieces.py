"""A change costs what it changes: how many pages of memory a server takes to show a new length or a new arc must not grow with the network."""
from __future__ import annotations

import os
import pathlib
import random
import statistics
import subprocess
import unittest

from fronts import PATIENCE, PROGRAM, InFolder

# The C library gives each piece of memory from 4,096 bytes on pages of its own, so the server's page faults count them.
ENVIRONMENT = {**os.environ, "MALLOC_MMAP_THRESHOLD_": "4096", "MALLOC_MMAP_MAX_": "1000000", "MALLOC_ARENA_MAX": "1"}

def grid(side: int) -> tuple[str, int]:
    """Nodes in a square, with an arc each way between neighbours, and how many arcs there are."""
    draw, lines = random.Random(1), []
    for node in range(1, side * side + 1):
        beside = ([node + 1] if node % side else []) + ([node + side] if node + side <= side * side else [])
        for other in beside:
            lines += [f"a {node} {other} {draw.randint(500, 1000)}\n", f"a {other} {node} {draw.randint(500, 1000)}\n"]
    return f"p sp {side * side} {len(lines)}\n" + "".join(lines), len(lines)

def faults(process: int) -> int:
    """How many pages of memory a process was given."""
    return int(pathlib.Path(f"/proc/{process}/stat").read_text().rpartition(")")[2].split()[7])

@unittest.skipUnless(PROGRAM, "the program")
class Pieces(InFolder):
    def pages_of_a_change(self, side: int, laid: bool = False) -> float:
        """The pages that the server of such a grid with four landmarks takes to show one new length, or one laid arc; the median of 21."""
        text, arcs = grid(side)
        (self.folder / "grid.gr").write_text(text)
        marks = [1, side, side * side // 2, side * side]
        (self.folder / "grid.ss").write_text("p aux sp ss 4\n" + "".join(f"s {mark}\n" for mark in marks))
        store = self.folder / f"{side}-{laid}.store"
        room = ["--room", str(arcs + 25)]
        subprocess.run([PROGRAM, "create", store, self.folder / "grid.gr", self.folder / "grid.ss", *room], check=True, capture_output=True, timeout=PATIENCE)
        draw, taken = random.Random(2), []
        with subprocess.Popen([PROGRAM, "serve", store, "--workers", "1", "--delta", "100"], stdin=subprocess.PIPE, stdout=subprocess.PIPE, env=ENVIRONMENT) as server:
            assert server.stdin and server.stdout
            for _ in range(25):
                before, node = faults(server.pid), draw.randint(1, side * side - 1)
                change = f"lay {node} {node + 1} 1000" if laid else f"set {draw.randint(1, arcs)} {draw.randint(500, 1000)}"
                server.stdin.write(f"{change}\nwait\n".encode())
                server.stdin.flush()
                self.assertTrue(server.stdout.readline().startswith(b"ok"))
                self.assertTrue(server.stdout.readline().startswith(b"v"))
                taken.append(faults(server.pid) - before)
            server.stdin.close()
            server.stdout.read()
        return statistics.median(taken[4:])

    def test_a_change_costs_what_it_changes(self) -> None:
        """A copy of the arcs alone would take 230 pages of the smaller grid, and 3,700 of the larger one."""
        small, large = self.pages_of_a_change(61), self.pages_of_a_change(244)
        self.assertLess(large, small + 200)

    def test_a_laid_arc_costs_what_it_changes(self) -> None:
        """The arcs turned round would take 500 pages of the smaller grid, and 8,000 of the larger one."""
        small, large = self.pages_of_a_change(61, laid=True), self.pages_of_a_change(244, laid=True)
        self.assertLess(large, small + 200)
