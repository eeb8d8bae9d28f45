"""A network with its places: the folder that web/from_osm.py made. Nodes and arcs are numbered from 1, as roadmark has them."""
import base64
import binascii
import csv
import math
import mmap
import pathlib
import struct
import zlib
from collections.abc import Iterator
from typing import NamedTuple

import numpy
from scipy.spatial import cKDTree

from globe import RADIUS, NoMap, metres
from roadmark import Arc

HINT = struct.Struct(">II")


class Place(NamedTuple):
    """A node, and the metres from where one asked to it."""

    node: int
    metres: float


class Bearing(NamedTuple):
    """A direction in degrees from north, clockwise, and how much an arc may differ from it."""

    degrees: float
    range: float


def on_globe(lons: numpy.ndarray, lats: numpy.ndarray) -> numpy.ndarray:
    """Points of a globe of radius 1."""
    lon, lat = numpy.radians(lons), numpy.radians(lats)
    return numpy.stack([numpy.cos(lat) * numpy.cos(lon), numpy.cos(lat) * numpy.sin(lon), numpy.sin(lat)], -1)


def network_of(path: pathlib.Path) -> tuple[str, str, numpy.ndarray]:
    """The profile, time or distance, and tails, heads and lengths of the arcs."""
    try:
        with open(path, encoding="ascii", errors="replace") as file:
            head = file.readline().split()
            if head[:3] != ["c", "from_osm", "profile"] or len(head) != 6:
                raise NoMap(f"{path} was not made by from_osm.py")
            arcs = numpy.loadtxt((line[2:] for line in file if line.startswith("a ")), numpy.int64, ndmin=2, comments=None)
    except OSError as fault:
        raise NoMap(f"{path}: {fault.strerror}") from None
    except ValueError as fault:
        raise NoMap(f"{path}: {fault}") from None
    return head[3], head[5], arcs.reshape(-1, 3).T


class Grouped:
    """The arcs by their nodes."""

    def __init__(self, nodes: numpy.ndarray, count: int) -> None:
        order = numpy.argsort(nodes, kind="stable")
        self.arcs = (order + 1).astype(numpy.int32)
        self.first = numpy.searchsorted(nodes[order], numpy.arange(1, count + 2))

    def of(self, node: int) -> list[int]:
        return self.arcs[self.first[node - 1]:self.first[node]].tolist()


class Map:
    """Places, arcs and names. Of the arcs' points only where their lines stand is kept in memory."""

    def __init__(self, folder: pathlib.Path) -> None:
        self.profile, self.by, (self.tails, self.heads, self.lengths) = network_of(folder / "network.gr")
        try:
            nodes = numpy.loadtxt(folder / "nodes.csv", delimiter=",", skiprows=1, ndmin=2, dtype=[("node", "i8"), ("osm", "i8"), ("lon", "f8"), ("lat", "f8")]).ravel()
            with open(folder / "arcs.csv", "rb") as file:
                self.text = mmap.mmap(file.fileno(), 0, access=mmap.ACCESS_READ)
        except (OSError, ValueError) as fault:
            raise NoMap(f"{folder}: {fault}") from None
        self.osm, self.lons, self.lats = nodes["osm"], nodes["lon"], nodes["lat"]
        self.line_ends = numpy.flatnonzero(numpy.frombuffer(self.text, numpy.uint8) == 10)
        if len(self.line_ends) != len(self.tails) + 1 or (len(self.tails) and max(self.tails.max(), self.heads.max()) > len(nodes)):
            raise NoMap(f"{folder}: network.gr, nodes.csv and arcs.csv are not of one map")
        self.tree = cKDTree(on_globe(self.lons, self.lats))
        self.check = zlib.crc32(nodes.tobytes())
        self.by_tail, self.by_head = Grouped(self.tails, len(nodes)), Grouped(self.heads, len(nodes))

    @property
    def bounds(self) -> list[float]:
        """West, south, east, north."""
        return [float(value) for value in (self.lons.min(), self.lats.min(), self.lons.max(), self.lats.max())]

    def location(self, node: int) -> list[float]:
        return [round(float(self.lons[node - 1]), 7), round(float(self.lats[node - 1]), 7)]

    def leaving(self, node: int) -> list[int]:
        return self.by_tail.of(node)

    def leading(self, node: int) -> list[int]:
        return self.by_head.of(node)

    def row(self, arc: int) -> tuple[int, float, list[list[float]], str]:
        """The OSM way of the arc, its metres, the points between its ends, and its name."""
        line = self.text[int(self.line_ends[arc - 1]) + 1:int(self.line_ends[arc])].decode("utf-8", "replace")
        _, way, length, points, name = next(csv.reader([line]))
        return int(way), float(length), [[float(number) for number in point.split(" ")] for point in points.split(";") if point], name

    def line(self, arc: int) -> list[list[float]]:
        """All points of the arc, with its ends."""
        return [self.location(int(self.tails[arc - 1])), *self.row(arc)[2], self.location(int(self.heads[arc - 1]))]

    def drawn(self, arc: Arc) -> tuple[list[list[float]], float]:
        """All points of an arc as the server has it, with its ends, and its metres. One that was laid is on no map, and is a straight line."""
        ends = [self.location(arc.tail), self.location(arc.head)]
        if arc.number > len(self.tails):
            return ends, round(float(metres(*ends[0], *ends[1])), 1)
        _, length, between, _ = self.row(arc.number)
        return [ends[0], *between, ends[1]], length

    def name(self, node: int) -> str:
        """The name of a road that leaves the node."""
        return next((name for name in (self.row(arc)[3] for arc in self.leaving(node)) if name), "")

    # Which node is meant.

    def candidates(self, lon: float, lat: float) -> Iterator[Place]:
        """All nodes, the nearest first, and of two as near the one of the lower number."""
        point, taken, count = on_globe(numpy.array(lon), numpy.array(lat)), 0, 16
        while taken < len(self.lons):
            chords, nodes = self.tree.query(point, k=min(count, len(self.lons)))
            found = sorted(zip(numpy.atleast_1d(chords).tolist(), (numpy.atleast_1d(nodes) + 1).tolist()))
            for chord, node in found[taken:]:
                yield Place(node, 2 * RADIUS * math.asin(min(1, chord / 2)))
            taken, count = len(found), count * 8

    def near(self, lon: float, lat: float, count: int = 1, radius: float = math.inf, bearing: Bearing | None = None) -> list[Place]:
        """So many nodes nearest to a position, within a radius, from which an arc leads in this direction."""
        found: list[Place] = []
        for place in self.candidates(lon, lat):
            if place.metres > radius or len(found) == count:
                break
            if bearing is None or any(self.leads(arc, bearing) for arc in self.leaving(place.node)):
                found.append(place)
        return found

    def leads(self, arc: int, bearing: Bearing) -> bool:
        (lon1, lat1), (lon2, lat2) = self.line(arc)[:2]
        degrees = math.degrees(math.atan2((lon2 - lon1) * math.cos(math.radians(lat1)), lat2 - lat1))
        return abs((degrees - bearing.degrees + 180) % 360 - 180) <= bearing.range

    def hint(self, node: int) -> str:
        """A node's name for later requests, as long as the map is this one."""
        return base64.urlsafe_b64encode(HINT.pack(node, self.check)).decode().rstrip("=")

    def hinted(self, hint: str) -> int | None:
        """The node that a hint means, or None where it is one of another map; ValueError where it is no hint."""
        try:
            node, check = HINT.unpack(base64.b64decode(hint + "=", b"-_", True))
        except (binascii.Error, struct.error) as fault:
            raise ValueError(hint) from fault
        return node if check == self.check and 1 <= node <= len(self.lons) else None

    def within(self, west: float, south: float, east: float, north: float) -> list[int]:
        """The arcs of which an end is in a box."""
        inside = numpy.append(False, (self.lons >= west) & (self.lons <= east) & (self.lats >= south) & (self.lats <= north))
        return (numpy.flatnonzero(inside[self.tails] | inside[self.heads]) + 1).tolist()
