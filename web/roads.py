"""The roads of an OpenStreetMap map that a traveller may use, read by pyosmium into arrays: memory is linear in the points of these roads, and in the nodes of the map, 16 bytes each."""
import math
import pathlib
import sys
import time
from array import array

import osmium

from globe import NoMap
from profiles import Profile


class Progress:
    """One line a second at most on standard error, and none in the first two."""

    def __init__(self, what: str) -> None:
        self.what, self.due = what, time.monotonic() + 2

    def tell(self, text: str) -> None:
        now = time.monotonic()
        if now >= self.due:
            self.due = now + 1
            print(f"{self.what}: {text}", file=sys.stderr, flush=True)


class Roads(osmium.SimpleHandler):
    """All points of all roads one behind the other. Road r has the points from `starts[r]` up to the start of the next one, and at least two."""

    def __init__(self, profile: Profile, restricted_too: bool, progress: Progress) -> None:
        super().__init__()
        self.profile, self.restricted_too, self.progress = profile, restricted_too, progress
        self.refs, self.lons, self.lats = array("q"), array("i"), array("i")
        self.starts, self.ways, self.forward, self.backward, self.seconds = array("q"), array("q"), array("d"), array("d"), array("d")
        self.names: dict[str, int] = {}
        self.named = array("i")
        self.barriers: set[int] = set()
        self.nodes_read = self.ways_read = self.points_missing = 0

    def node(self, node: osmium.osm.Node) -> None:
        self.nodes_read += 1
        if len(node.tags) and self.profile.blocks(dict(node.tags)):
            self.barriers.add(node.id)
        if not self.nodes_read & 0xFFFF:
            self.progress.tell(f"{self.nodes_read:,} nodes read")

    def way(self, way: osmium.osm.Way) -> None:
        self.ways_read += 1
        if not self.ways_read & 0x3FFF:
            self.progress.tell(f"{self.nodes_read:,} nodes and {self.ways_read:,} ways read, {len(self.ways):,} roads")
        tags = dict(way.tags)
        use = None if way.deleted else self.profile.use(tags, self.restricted_too)
        if use is None:
            return
        name = self.names.setdefault(" ".join((tags.get("name") or tags.get("ref") or "").split()), len(self.names))
        for refs, lons, lats in self.pieces(way):
            self.starts.append(len(self.refs))
            self.refs.extend(refs)
            self.lons.extend(lons)
            self.lats.extend(lats)
            self.ways.append(way.id)
            self.forward.append(use.forward)
            self.backward.append(use.backward)
            self.seconds.append(use.seconds or math.nan)
            self.named.append(name)

    def pieces(self, way: osmium.osm.Way) -> list[tuple[list[int], list[int], list[int]]]:
        """The way's points in pieces that end where a point is not in the map; a point that follows itself counts once, and a piece has two points at least."""
        pieces: list[tuple[list[int], list[int], list[int]]] = [([], [], [])]
        for node in way.nodes:
            if not node.location.valid():
                self.points_missing += 1
                pieces.append(([], [], []))
            elif not pieces[-1][0] or pieces[-1][0][-1] != node.ref:
                for values, value in zip(pieces[-1], (node.ref, node.x, node.y)):
                    values.append(value)
        return [piece for piece in pieces if len(piece[0]) > 1]


def read(path: pathlib.Path, profile: Profile, restricted_too: bool, progress: Progress) -> Roads:
    """The roads of the map at this path."""
    roads = Roads(profile, restricted_too, progress)
    try:
        with open(path, "rb") as file:
            if not file.read(1):
                raise NoMap("it is empty")
        roads.apply_file(str(path), locations=True, idx="flex_mem")
    except (RuntimeError, ValueError, osmium.InvalidLocationError) as fault:
        raise NoMap(f"it is no OpenStreetMap map (.osm, .osm.gz, .osm.bz2 or .osm.pbf): {fault}") from None
    if not roads.ways:
        missing = ", since the points of its ways come behind them or not at all: sort it by `osmium sort`" if roads.points_missing else ""
        raise NoMap(f"it has {roads.nodes_read:,} nodes and {roads.ways_read:,} ways, and no road for the profile {profile.name}{missing}")
    if roads.points_missing:
        print(f"from_osm: {roads.points_missing:,} points of roads are not in the map: the roads end there", file=sys.stderr)
    return roads
