"""Tests of web/from_osm.py: small maps whose answers are worked out by hand, and real ones beside osmnx and networkx."""
import itertools
import os
import pathlib
import random
import shutil
import signal
import subprocess
import time
import xml.etree.ElementTree
from typing import Any

from checks import PYTHON, WEB, Checks, call, equal, from_osm, skip, true
from towns import FOOT, HEAD, town, write_map

# 0.001 degrees of latitude along a meridian of a globe of radius 6371.009 km: 111.195 m, so 40.0 s at 10 km/h, and 16.0 s at 25 km/h.
METRES = 111.195
NODES = {1: (10, 50), 2: (10, 50.001), 3: (10, 50.002), 4: (10, 50.003), 5: (10.001, 50.002)}
RESIDENTIAL = {"highway": "residential"}

# Tags of the one way 1 2 3, and the arcs (tail and head by OSM nodes, tenths of a second for 222.39 m) that a car has.
ONE_WAY = (
    (RESIDENTIAL, {(1, 3): 320, (3, 1): 320}),
    ({**RESIDENTIAL, "oneway": "yes"}, {(1, 3): 320}),
    ({**RESIDENTIAL, "oneway": "-1"}, {(3, 1): 320}),
    ({**RESIDENTIAL, "junction": "roundabout"}, {(1, 3): 320}),
    ({"highway": "motorway"}, {(1, 3): 89}),
    ({**RESIDENTIAL, "maxspeed": "50"}, {(1, 3): 200, (3, 1): 200}),
    ({**RESIDENTIAL, "maxspeed:forward": "50"}, {(1, 3): 200, (3, 1): 320}),
    ({**RESIDENTIAL, "maxspeed": "30 mph"}, {(1, 3): 207, (3, 1): 207}),
    ({**RESIDENTIAL, "maxspeed": "FR:urban"}, {(1, 3): 200, (3, 1): 200}),
    ({"highway": "primary", "surface": "cobblestone"}, {(1, 3): 267, (3, 1): 267}),
    ({"highway": "track", "motor_vehicle": "yes"}, {(1, 3): 801, (3, 1): 801}),
    ({"route": "ferry", "duration": "00:10"}, {(1, 3): 6000, (3, 1): 6000}),
    ({"route": "shuttle_train"}, {(1, 3): 801, (3, 1): 801}),
    ({**RESIDENTIAL, "bridge": "movable"}, {(1, 3): 1601, (3, 1): 1601}),
    ({**RESIDENTIAL, "maxspeed": "BE-VLG:urban"}, {(1, 3): 200, (3, 1): 200}),
    ({**RESIDENTIAL, "access": "no", "motorcar": "yes"}, {(1, 3): 320, (3, 1): 320}),
)
SHUT = ({"highway": "footway"}, {"highway": "track"}, {"building": "yes"}, {**RESIDENTIAL, "access": "no"}, {**RESIDENTIAL, "motor_vehicle": "destination"}, {"highway": "construction"},
        {**RESIDENTIAL, "area": "yes"}, {"highway": "proposed"}, {**RESIDENTIAL, "impassable": "yes"}, {**RESIDENTIAL, "oneway": "reversible"},
        {"highway": "primary", "hov": "designated"})
# The same way for the others: a profile, tags, arcs.
OTHERS = (
    ("bike", {"highway": "cycleway"}, {(1, 3): 534, (3, 1): 534}),
    ("bike", {**RESIDENTIAL, "oneway": "yes"}, {(1, 3): 534, (3, 1): 2002}),
    ("bike", {**RESIDENTIAL, "oneway": "yes", "oneway:bicycle": "no"}, {(1, 3): 534, (3, 1): 534}),
    ("bike", {"highway": "footway"}, {(1, 3): 2002, (3, 1): 2002}),
    ("bike", {**RESIDENTIAL, "oneway": "yes", "foot": "no"}, {(1, 3): 534}),
    ("bike", {"amenity": "parking"}, {(1, 3): 801, (3, 1): 801}),
    ("bike", {"railway": "platform"}, {(1, 3): 2002, (3, 1): 2002}),
    ("foot", {"highway": "footway"}, {(1, 3): 1601, (3, 1): 1601}),
    ("foot", {**RESIDENTIAL, "oneway": "yes"}, {(1, 3): 1601, (3, 1): 1601}),
    ("foot", {"highway": "path", "surface": "sand"}, {(1, 3): 3202, (3, 1): 3202}),
)


def network(folder: pathlib.Path) -> tuple[list[int], list[tuple[int, int, int]]]:
    """The OSM number of each node, and the arcs: tail, head, length."""
    lines = (folder / "nodes.csv").read_text().splitlines()
    equal(lines[0], "node,osm,lon,lat")
    text = [line.split() for line in (folder / "network.gr").read_text().splitlines() if not line.startswith("c")]
    equal(text[0], ["p", "sp", str(len(lines) - 1), str(len(text) - 1)])
    return [0, *(int(line.split(",")[1]) for line in lines[1:])], [(int(tail), int(head), int(length)) for _, tail, head, length in text[1:]]


def arcs_by_osm(folder: pathlib.Path) -> dict[tuple[int, int], int]:
    osm, arcs = network(folder)
    return {(osm[tail], osm[head]): length for tail, head, length in arcs}


class Maps:
    """Tests over one folder."""

    def __init__(self, folder: pathlib.Path, program: pathlib.Path) -> None:
        self.folder, self.program, self.made = folder, program, itertools.count()

    def make(self, path: pathlib.Path, *words: object, status: int = 0) -> pathlib.Path:
        folder = self.folder / f"net{next(self.made)}"
        from_osm(path, folder, *words, status=status)
        return folder

    def drawn(self, ways: list, **more: object) -> pathlib.Path:
        return write_map(self.folder / f"{next(self.made)}.osm", NODES, ways, **more)

    def one_way(self) -> None:
        for tags, wanted in ONE_WAY:
            equal(arcs_by_osm(self.make(self.drawn([([1, 2, 3], tags)]), "--all")), wanted, str(tags))
        for profile, tags, wanted in OTHERS:
            equal(arcs_by_osm(self.make(self.drawn([([1, 2, 3], tags)]), "--all", "--profile", profile)), wanted, f"{profile} {tags}")

    def shut(self) -> None:
        for tags in SHUT:
            folder = self.make(self.drawn([([1, 2, 3], RESIDENTIAL), ([3, 5], tags)]), "--all")
            true(5 not in network(folder)[0], f"{tags}: a road")

    def restricted(self) -> None:
        path = self.drawn([([1, 2], RESIDENTIAL), ([2, 3], {**RESIDENTIAL, "access": "destination"})])
        equal(set(network(self.make(path))[0][1:]), {1, 2})
        equal(set(network(self.make(path, "--restricted"))[0][1:]), {1, 2, 3})

    def meeting(self) -> None:
        """Ways are cut where they meet, and a point that is no meeting stays between."""
        folder = self.make(self.drawn([([1, 2, 3, 4], {**RESIDENTIAL, "name": "Long, \"old\" road"}), ([3, 5], RESIDENTIAL)]), "--by", "distance")
        arcs = arcs_by_osm(folder)
        equal({pair: length for pair, length in arcs.items() if 5 not in pair}, {(1, 3): 2224, (3, 1): 2224, (3, 4): 1112, (4, 3): 1112})
        lines = (folder / "arcs.csv").read_text().splitlines()
        equal(lines[:3], ["arc,way,metres,points,name", '1,101,222.4,10.0000000 50.0010000,"Long, ""old"" road"', '2,101,222.4,10.0000000 50.0010000,"Long, ""old"" road"'])
        equal(set(network(self.make(self.drawn([([1, 2, 3, 4], RESIDENTIAL)]), "--every", 100))[0][1:]), {1, 2, 3, 4})

    def barriers(self) -> None:
        """Nobody passes a bollard; a gate is passed by a car. A bicycle passes a bollard."""
        ways = [([1, 2, 3], RESIDENTIAL), ([3, 4], RESIDENTIAL)]
        bollard = self.drawn(ways, tagged={3: {"barrier": "bollard"}})
        equal(sorted(network(self.make(bollard, "--all"))[0][1:]), [1, 3, 3, 4])
        equal(arcs_by_osm(self.make(bollard)), {(1, 3): 320, (3, 1): 320})
        for more in (("--profile", "bike"),):
            equal(sorted(network(self.make(bollard, *more))[0][1:]), [1, 3, 4])
        equal(sorted(network(self.make(self.drawn(ways, tagged={3: {"barrier": "gate"}})))[0][1:]), [1, 3, 4])
        equal(sorted(network(self.make(self.drawn(ways, tagged={3: {"barrier": "gate", "access": "no"}})))[0][1:]), [1, 3])

    def strong(self) -> None:
        """Node 4 is at the end of a one-way street: it is left out, but with --all."""
        path = self.drawn([([1, 2, 3], RESIDENTIAL), ([3, 4], {**RESIDENTIAL, "oneway": "yes"}), ([2, 5], RESIDENTIAL)])
        equal(set(network(self.make(path))[0][1:]), {1, 2, 3, 5})
        equal(set(network(self.make(path, "--all"))[0][1:]), {1, 2, 3, 4, 5})

    def faults(self) -> None:
        """What is no map, and what has no road, is told in one line with status 1, and leaves nothing."""
        cases = {"text.osm": "hello\n", "empty.osm": "", "cut.osm": HEAD + ' <node id="1" lat="1" lon="1"', "page.txt": "<html></html>", "other.osm": "<html></html>\n",
                 "bare.osm": HEAD + FOOT, "words.pbf": "hello", "words.osm.gz": "hello", "number.osm": HEAD + ' <node id="x" version="1" lat="1" lon="1"/>\n' + FOOT,
                 "far.osm": HEAD + ' <node id="1" version="1" lat="500" lon="1"/>\n <node id="2" version="1" lat="50" lon="1"/>\n <way id="3" version="1"><nd ref="1"/><nd ref="2"/>'
                                   '<tag k="highway" v="residential"/></way>\n' + FOOT}
        for name, text in cases.items():
            path = self.folder / name
            path.write_text(text)
            before = set(os.listdir(self.folder))
            told = from_osm(path, self.folder / "none", status=1)
            true(told.startswith("from_osm: ") and told.count("\n") == 1 and name in told, f"{name}: {told}")
            equal(set(os.listdir(self.folder)), before, name)
        for path, folder in ((self.folder / "there is none", self.folder / "none"), (self.folder, self.folder / "none"), (self.drawn([([1, 2], RESIDENTIAL)]), self.folder)):
            from_osm(path, folder, status=1)
        for words in (("--profile", "boat"), ("--by", "hops"), ("--landmarks", 1001), ("--every", "0.5"), ("--every", "nan")):
            from_osm(path, self.folder / "none", *words, status=2)

    def unsorted(self) -> None:
        path = self.folder / "late.osm"
        path.write_text(HEAD + ' <way id="3" version="1"><nd ref="1"/><nd ref="2"/><tag k="highway" v="residential"/></way>\n <node id="1" version="1" lat="50" lon="1"/>\n' + FOOT)
        true("osmium sort" in from_osm(path, self.folder / "none", status=1), "not told to sort it")

    def missing(self) -> None:
        """A road of which the map has no points at its end is cut there."""
        path = self.drawn([([1, 2, 3, 99, 4, 5], RESIDENTIAL), ([2, 3], {**RESIDENTIAL, "maxspeed": "50"})])
        true("1 points" in from_osm(path, self.folder / "cut", "--all"), "not told")
        equal({frozenset(pair) for pair in arcs_by_osm(self.folder / "cut")}, {frozenset(pair) for pair in ((1, 2), (2, 3), (4, 5))})

    def stopped(self) -> None:
        """Whatever stops it, no folder is there by halves."""
        path = town(self.folder / "slow.osm", 90)
        for number in (signal.SIGTERM, signal.SIGINT):
            for wait in (0.3, 1.0, 1.5):
                child = subprocess.Popen([PYTHON, WEB / "from_osm.py", path, self.folder / "stopped"], stdout=subprocess.DEVNULL, stderr=subprocess.DEVNULL)
                time.sleep(wait)
                child.send_signal(number)
                child.wait(60)
                left = [name for name in os.listdir(self.folder) if name.startswith((".stopped", "stopped"))]
                true(left in ([], ["stopped"]), f"left: {left}")
                if left:
                    equal(len(os.listdir(self.folder / "stopped")), 4)
                    shutil.rmtree(self.folder / "stopped")

    def same(self, one: pathlib.Path, other: pathlib.Path) -> None:
        for name in ("network.gr", "landmarks.ss", "nodes.csv", "arcs.csv"):
            equal((one / name).read_bytes(), (other / name).read_bytes(), name)

    def twice(self, path: pathlib.Path) -> None:
        self.same(self.make(path), self.make(path))

    def kinds(self) -> None:
        """The same map as .osm, .osm.pbf, .osm.gz and .osm.bz2, which osmium-tool makes."""
        path = town(self.folder / "kinds.osm", 12)
        wanted = self.make(path)
        for kind in ("osm.pbf", "osm.gz", "osm.bz2"):
            call("osmium", "cat", path, "-o", self.folder / f"kinds.{kind}")
            self.same(wanted, self.make(self.folder / f"kinds.{kind}"))

    def landmarks(self, path: pathlib.Path) -> None:
        """Each landmark is the one that is farthest from those before it, by networkx."""
        import networkx
        folder = self.make(path, "--landmarks", 5)
        osm, arcs = network(folder)
        graph = networkx.DiGraph()
        for tail, head, length in sorted(arcs, key=lambda arc: -arc[2]):
            graph.add_edge(tail, head, weight=length)
        marks = sorted(int(line.split()[1]) for line in (folder / "landmarks.ss").read_text().splitlines()[1:])
        rows = {1: networkx.single_source_dijkstra_path_length(graph, 1)}
        taken: list[int] = []
        while len(taken) < min(5, len(osm) - 1):
            nearest = {node: min(rows[mark][node] for mark in taken or [1]) for node in graph if node not in taken}
            far = max(nearest.values())
            taken.append(min(node for node in nearest if nearest[node] == far))
            rows[taken[-1]] = networkx.single_source_dijkstra_path_length(graph, taken[-1])
        equal(marks, sorted(taken))
        self.loads(folder)

    def loads(self, folder: pathlib.Path) -> None:
        """The program makes a store of it."""
        store = folder / "roads.store"
        equal(call(self.program, "create", store, folder / "network.gr", folder / "landmarks.ss").stdout, "ok 0\n")

    def beside_osmnx(self, path: pathlib.Path, pairs: int) -> None:
        """Random pairs, answered by the program, beside osmnx's reading of the map and networkx's Dijkstra, equal up to half a tenth for each arc of a walk."""
        import networkx
        graph = read_by_osmnx(path, self.folder / "only_roads.osm")
        folder = self.make(path, "--all")
        osm, arcs = network(folder)
        ours = networkx.DiGraph()
        for tail, head, length in sorted(arcs, key=lambda arc: -arc[2]):
            ours.add_edge(tail, head, weight=length)
        equal(set(osm[1:]) - set(graph), set(), "nodes that osmnx hasn't")
        dice = random.Random(7)
        asked = [(source, dice.randrange(1, len(osm))) for source in dice.choices(range(1, len(osm)), k=pairs // 40) for _ in range(40)]
        answers = dict(zip(asked, self.lengths(folder, asked)))
        numbers, met = {osm[node]: node for node in range(1, len(osm))}, 0
        for source, some in itertools.groupby(asked, lambda pair: pair[0]):
            wanted, routes = networkx.single_source_dijkstra(graph, osm[source], weight="tenths")
            mine = networkx.single_source_dijkstra_path(ours, source)
            for target in (target for _, target in some):
                length = answers[source, target]
                equal(length is None, osm[target] not in wanted, f"a walk from {source} to {target}")
                if length is not None:
                    met += 1
                    under, over = len(mine[target]) - 1, sum(node in numbers for node in routes[osm[target]]) - 1
                    true(-0.51 * under <= length - wanted[osm[target]] <= 0.51 * over, f"{source} to {target}: {length}, {wanted[osm[target]]:.2f} by networkx, {under} and {over} arcs")
        print(f"  {met} of {pairs} pairs have a walk, {len(osm) - 1} nodes, {len(arcs)} arcs")

    def lengths(self, folder: pathlib.Path, pairs: list[tuple[int, int]]) -> list[int | None]:
        asked = folder / "pairs.p2p"
        asked.write_text(f"p aux sp p2p {len(pairs)}\n" + "".join(f"q {source} {target}\n" for source, target in pairs))
        lines = call(self.program, "batch", folder / "network.gr", asked).stdout.split("\n")[1:-1]
        return [int(line.split()[3]) if line.startswith("d") else None for line in lines]


def read_by_osmnx(path: pathlib.Path, only_roads: pathlib.Path) -> Any:
    """osmnx's graph of the ways that a car may drive on, each edge with its tenths of a second. What is no road for cars is taken out of the XML before, by rules of the test's own."""
    import osmnx
    tree = xml.etree.ElementTree.parse(path)
    root = tree.getroot()
    speeds: dict[int, float] = {}
    for way in root.findall("way"):
        tags = {tag.get("k"): tag.get("v") for tag in way.findall("tag")}
        speed = driven(tags)
        if speed:
            speeds[int(way.get("id"))] = speed
        else:
            root.remove(way)
    tree.write(only_roads)
    osmnx.settings.useful_tags_way = ["highway", "oneway", "junction"]
    graph = osmnx.graph_from_xml(only_roads, bidirectional=False, simplify=False, retain_all=True)
    for _, _, edge in graph.edges(data=True):
        edge["tenths"] = edge["length"] * 36 / speeds[edge["osmid"]]
    return graph


def driven(tags: dict[str, str]) -> float:
    """The km/h of a car on a way with these tags, of the few kinds that the maps of these tests have."""
    if any(tags.get(key) in ("private", "no") for key in ("access",)) and tags.get("motor_vehicle") != "yes":
        return 0
    by_class = {"primary": 65, "secondary": 55, "tertiary": 40, "unclassified": 25, "residential": 25, "service": 15}
    speed = by_class.get(tags.get("highway"), 10 if tags.get("motor_vehicle") == "yes" and "highway" in tags else 0)
    if speed and "maxspeed" in tags:
        number = tags["maxspeed"].split()
        speed = 0.8 * int(number[0]) * (1.609 if number[1:] == ["mph"] else 1)
    return min(speed, 30) if tags.get("surface") == "cobblestone" else speed


def try_maps(checks: Checks, folder: pathlib.Path, program: pathlib.Path, real: pathlib.Path | None) -> None:
    maps = Maps(folder, program)
    for name in ("one_way", "shut", "restricted", "meeting", "barriers", "strong", "kinds", "faults", "unsorted", "missing", "stopped"):
        checks.run(f"maps: {name}", getattr(maps, name))
    made = town(folder / "town.osm", 40)
    for path, pairs in ((made, 1000), (real, 1000)):
        if path is None:
            skip("the real map: spreewaldring.osm of Debian's sumo-tools is not there (web/install.sh --tests)")
            continue
        checks.run(f"maps: twice the same bytes, {path.name}", lambda: maps.twice(path))
        checks.run(f"maps: landmarks, {path.name}", lambda: maps.landmarks(path))
        checks.run(f"maps: {pairs} pairs beside osmnx and networkx, {path.name}", lambda: maps.beside_osmnx(path, pairs))
