#!/usr/bin/env python3
"""Asks for all routes of random small networks in a session, and compares them with networkx: each is as long as a shortest path, its arcs are open, meet end to
end, add up to its length and reach no node twice; where there is no path there is no route. Between two rounds arcs are closed, opened, set and laid, and a group
is supposed.

    tools/compare_routes.py [COUNT [SEED [PROGRAM]]]

takes COUNT networks (300) from SEED (1) on. Needs the built program, crates/roadmark/out/roadmark or the path that is given, and networkx (python3-networkx)."""
import pathlib
import random
import subprocess
import sys
import tempfile

import networkx

TOP = pathlib.Path(__file__).resolve().parent.parent
sys.path.insert(0, str(TOP / "client"))
import roadmark  # noqa: E402

LONGEST = 2147483647

class Roads:
    """A network, with what its commands do."""

    def __init__(self, draw: random.Random) -> None:
        self.nodes = draw.randint(1, 9)
        self.draw = draw
        self.arcs = [[self.node(), self.node(), self.length(), True] for _ in range(draw.randint(0, 24))]

    def node(self) -> int:
        return self.draw.randint(1, self.nodes)

    def length(self) -> int:
        return self.draw.choice([0, 0, 0, 1, 1, 2, 5, LONGEST, self.draw.randint(0, 9)])

    def text(self) -> str:
        return f"p sp {self.nodes} {len(self.arcs)}\n" + "".join(f"a {tail} {head} {length}\n" for tail, head, length, _ in self.arcs)

    def copy(self) -> "Roads":
        other = Roads.__new__(Roads)
        other.nodes, other.draw, other.arcs = self.nodes, self.draw, [list(arc) for arc in self.arcs]
        return other

    def change(self) -> str:
        """A command that is admitted, carried out."""
        at = self.draw.randrange(len(self.arcs)) if self.arcs else None
        if at is None or self.draw.random() < 0.2:
            arc = [self.node(), self.node(), self.length(), True]
            self.arcs.append(arc)
            return f"lay {arc[0]} {arc[1]} {arc[2]}"
        if self.draw.random() < 0.4:
            self.arcs[at][2] = self.length()
            return f"set {at + 1} {self.arcs[at][2]}"
        self.arcs[at][3] = not self.arcs[at][3]
        return f"{'reopen' if self.arcs[at][3] else 'close'} {at + 1}"

    def graph(self) -> networkx.MultiDiGraph:
        graph = networkx.MultiDiGraph()
        graph.add_nodes_from(range(1, self.nodes + 1))
        graph.add_edges_from((tail, head, number + 1, {"weight": length}) for number, (tail, head, length, is_open) in enumerate(self.arcs) if is_open)
        return graph

def judge(roads: Roads, session: roadmark.Session) -> int:
    """How many routes were compared."""
    graph = roads.graph()
    compared = 0
    for source in range(1, roads.nodes + 1):
        lengths = networkx.single_source_dijkstra_path_length(graph, source)
        for target in range(1, roads.nodes + 1):
            _, length, arcs = session.route(source, target)
            assert length == lengths.get(target), (roads.text(), source, target, length)
            met, total = [source], 0
            for arc in arcs:
                tail, head, weight, is_open = roads.arcs[arc.number - 1]
                assert (arc.tail, arc.head, arc.length, arc.is_open) == (tail, head, weight, True) and is_open and tail == met[-1], (roads.text(), source, target, arcs)
                met.append(head)
                total += weight
            assert length is None and not arcs or (met[-1] == target and total == length and len(set(met)) == len(met)), (roads.text(), source, target, arcs)
            compared += 1
    return compared

def main() -> int:
    count, seed = (int(word) for word in (sys.argv[1:3] + ["300", "1"][len(sys.argv[1:3]):]))
    program = sys.argv[3] if len(sys.argv) > 3 else TOP / "crates/roadmark/out/roadmark"
    compared = 0
    for number in range(seed, seed + count):
        draw = random.Random(number)
        roads = Roads(draw)
        with tempfile.TemporaryDirectory() as name:
            folder = pathlib.Path(name)
            (folder / "a.gr").write_text(roads.text())
            marks = sorted(draw.sample(range(1, roads.nodes + 1), draw.randint(0, min(2, roads.nodes))))
            (folder / "a.ss").write_text(f"p aux sp ss {len(marks)}\n" + "".join(f"s {mark}\n" for mark in marks))
            # With room for all arcs that may be laid: three in each round, and three more in what is supposed.
            subprocess.run([program, "create", folder / "a.store", folder / "a.gr", folder / "a.ss", "--room", str(len(roads.arcs) + 12)], check=True, stdout=subprocess.DEVNULL)
            with roadmark.Session.start([program, "serve", folder / "a.store"]) as session:
                for _ in range(3):
                    compared += judge(roads, session)
                    supposed = roads.copy()
                    session.suppose([supposed.change() for _ in range(draw.randint(1, 3))])
                    compared += judge(supposed, session)
                    session.forget()
                    for _ in range(draw.randint(1, 3)):
                        session.change(roads.change())
                    session.wait()
                compared += judge(roads, session)
    print(f"{count} networks, {compared} routes: all as long as networkx says")
    return 0

if __name__ == "__main__":
    sys.exit(main())
