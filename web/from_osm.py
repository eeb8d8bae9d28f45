#!/usr/bin/python3 -B
"""Makes a road network for roadmark of an OpenStreetMap map: .osm or .osm.pbf, also compressed.

    web/from_osm.py MAP FOLDER [--profile car|bike|foot] [--by time|distance] [--all] [--restricted] [--every M] [--landmarks K]

FOLDER is made, and has, once all is done, and else not at all:
    network.gr     the network, for `roadmark create`; lengths are tenths of a second, or of a metre with --by distance
    landmarks.ss   landmarks far apart
    nodes.csv      node, OSM node, longitude, latitude
    arcs.csv       arc, OSM way, metres, the points between its ends, the road's name
docs/WEB.md tells the rules by which roads are open, and how fast.
"""
import argparse
import csv
import os
import pathlib
import shutil
import signal
import sys
import tempfile
from collections.abc import Iterator

import numpy

import graphs
from globe import NoMap
from profiles import PROFILES
from roads import Progress, Roads, read

MOST_NODES, MOST_ARCS, MOST_LANDMARKS = 33_554_432, 67_108_864, 1_000
UNITS = {"time": "tenths of a second", "distance": "tenths of a metre"}


def words(given_words: list[str] | None) -> argparse.Namespace:
    parser = argparse.ArgumentParser(prog="from_osm.py", description="Makes a road network for roadmark of an OpenStreetMap map.")
    parser.add_argument("map", metavar="MAP", type=pathlib.Path, help="an .osm or .osm.pbf file, also .osm.gz and .osm.bz2")
    parser.add_argument("folder", metavar="FOLDER", type=pathlib.Path, help="a new or empty folder, where the network goes")
    parser.add_argument("--profile", choices=sorted(PROFILES), default="car", help="who travels (car)")
    parser.add_argument("--by", choices=sorted(UNITS), default="time", help="what an arc's length is: tenths of a second, or of a metre (time)")
    parser.add_argument("--all", action="store_true", help="all roads, and not only the largest part in which each node leads to each")
    parser.add_argument("--restricted", action="store_true", help="also roads for residents, customers and deliveries, which are else left out")
    parser.add_argument("--every", metavar="M", type=float, default=0, help="a node each M metres of a road at least, where the map has a point there (only where roads meet or end)")
    parser.add_argument("--landmarks", metavar="K", type=int, default=16, help="how many landmarks (16)")
    given = parser.parse_args(given_words)
    if not 0 <= given.landmarks <= MOST_LANDMARKS:
        parser.error(f"--landmarks: 0 to {MOST_LANDMARKS}")
    if not (given.every == 0 or 1 <= given.every <= 1e6):
        parser.error("--every: 1 to 1000000 metres")
    return given


def network_lines(network: graphs.Network, given: argparse.Namespace) -> Iterator[str]:
    yield f"c from_osm profile {given.profile} by {given.by}\n"
    yield f"c lengths are {UNITS[given.by]}; data by OpenStreetMap contributors, ODbL 1.0\n"
    yield f"p sp {len(network.places)} {len(network.lengths)}\n"
    for tail, head, length in zip((network.tails + 1).tolist(), (network.heads + 1).tolist(), network.lengths.tolist()):
        yield f"a {tail} {head} {length}\n"


def node_lines(network: graphs.Network, roads: Roads) -> Iterator[str]:
    yield "node,osm,lon,lat\n"
    for node, place in enumerate(network.places.tolist(), 1):
        yield f"{node},{roads.refs[place]},{roads.lons[place] / 1e7:.7f},{roads.lats[place] / 1e7:.7f}\n"


def write_arcs(path: pathlib.Path, network: graphs.Network, roads: Roads, progress: Progress) -> None:
    names = list(roads.names)
    with open(path, "x", newline="", encoding="utf-8") as file:
        writer = csv.writer(file, lineterminator="\n")
        writer.writerow(["arc", "way", "metres", "points", "name"])
        for arc, (piece, turned) in enumerate(zip(network.pieces.tolist(), network.turned.tolist()), 1):
            road = int(network.roads_of[piece])
            between = range(int(network.begins[piece]) + 1, int(network.ends[piece]))
            points = ";".join(f"{roads.lons[place] / 1e7:.7f} {roads.lats[place] / 1e7:.7f}" for place in (reversed(between) if turned else between))
            writer.writerow([arc, roads.ways[road], f"{network.metres[piece]:.1f}", points, names[roads.named[road]]])
            if not arc & 0xFFFF:
                progress.tell(f"{arc:,} of {len(network.lengths):,} arcs written")


def write_lines(path: pathlib.Path, lines: Iterator[str]) -> None:
    with open(path, "x", encoding="utf-8") as file:
        file.writelines(lines)


def write_all(folder: pathlib.Path, network: graphs.Network, roads: Roads, marks: list[int], given: argparse.Namespace, progress: Progress) -> None:
    write_lines(folder / "network.gr", network_lines(network, given))
    write_lines(folder / "landmarks.ss", iter([f"p aux sp ss {len(marks)}\n", *(f"s {mark + 1}\n" for mark in marks)]))
    write_lines(folder / "nodes.csv", node_lines(network, roads))
    write_arcs(folder / "arcs.csv", network, roads, progress)
    for path in [*sorted(folder.iterdir()), folder]:
        descriptor = os.open(path, os.O_RDONLY)
        os.fsync(descriptor)
        os.close(descriptor)


def make(given: argparse.Namespace, progress: Progress) -> tuple[graphs.Network, Roads, list[int]]:
    roads = read(given.map, PROFILES[given.profile], given.restricted, progress)
    progress.tell(f"{len(roads.ways):,} roads read, cut where they meet")
    network = graphs.network_of(roads, given.by, given.every)
    part = graphs.strong_part(network)
    if not given.all:
        network, part = graphs.kept(network, part), numpy.ones(int(part.sum()), bool)
    if len(network.places) > MOST_NODES or len(network.lengths) > MOST_ARCS:
        raise NoMap(f"{len(network.places):,} nodes and {len(network.lengths):,} arcs are more than roadmark takes ({MOST_NODES:,} and {MOST_ARCS:,})")
    return network, roads, graphs.landmarks(network, given.landmarks, part, progress)


def taken(folder: pathlib.Path) -> bool:
    return folder.exists() and (not folder.is_dir() or any(folder.iterdir()))


def run(given: argparse.Namespace) -> str:
    """All is written into a folder beside FOLDER, which then gets its name."""
    if taken(given.folder):
        raise NoMap(f"{given.folder} is there already: name a new folder, or an empty one")
    progress = Progress("from_osm")
    network, roads, marks = make(given, progress)
    given.folder.parent.mkdir(parents=True, exist_ok=True)
    beside = pathlib.Path(tempfile.mkdtemp(prefix=f".{given.folder.name}.", dir=given.folder.parent))
    try:
        write_all(beside, network, roads, marks, given, progress)
        beside.chmod(0o755)
        beside.rename(given.folder)
    except BaseException:
        shutil.rmtree(beside, ignore_errors=True)
        raise
    return f"{len(network.places)} nodes, {len(network.lengths)} arcs, {len(marks)} landmarks"


def main(given_words: list[str] | None = None) -> int:
    given = words(given_words)
    signal.signal(signal.SIGTERM, lambda number, frame: sys.exit(128 + number))
    try:
        print(run(given))
    except NoMap as fault:
        print(f"from_osm: {given.map}: {fault}", file=sys.stderr)
        return 1
    except OSError as fault:
        print(f"from_osm: {fault.filename or given.folder}: {fault.strerror}", file=sys.stderr)
        return 1
    except MemoryError:
        print(f"from_osm: {given.map}: there is not enough memory", file=sys.stderr)
        return 1
    except KeyboardInterrupt:
        return 130
    return 0


if __name__ == "__main__":
    sys.exit(main())
