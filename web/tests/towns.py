"""Maps for tests: a text of ways as an .osm file, and a town of any size from a generator."""
import pathlib
import random
from collections.abc import Iterable, Mapping
from xml.sax.saxutils import quoteattr

HEAD, FOOT = '<?xml version="1.0" encoding="UTF-8"?>\n<osm version="0.6" generator="web/tests/towns.py">\n', "</osm>\n"
# A step of a town's grid in degrees, some hundred metres.
STEP = 0.0012
CLASSES = ("residential", "residential", "tertiary", "secondary", "unclassified", "primary")

Point = tuple[float, float]
Way = tuple[list[int], Mapping[str, str]]


def tag_lines(tags: Mapping[str, str]) -> str:
    return "".join(f"  <tag k={quoteattr(key)} v={quoteattr(value)}/>\n" for key, value in tags.items())


def write_map(path: pathlib.Path, nodes: Mapping[int, Point], ways: Iterable[Way], tagged: Mapping[int, Mapping[str, str]] = {}, relations: str = "") -> pathlib.Path:
    """Nodes with longitude and latitude, ways numbered from 101."""
    with open(path, "w", encoding="utf-8") as file:
        file.write(HEAD)
        for node, (lon, lat) in nodes.items():
            place = f'<node id="{node}" version="1" lat="{lat:.7f}" lon="{lon:.7f}"'
            file.write(f" {place}>\n{tag_lines(tagged[node])} </node>\n" if node in tagged else f" {place}/>\n")
        for way, (refs, tags) in enumerate(ways, 101):
            file.write(f' <way id="{way}" version="1">\n' + "".join(f'  <nd ref="{ref}"/>\n' for ref in refs) + f"{tag_lines(tags)} </way>\n")
        file.write(relations + FOOT)
    return path


def street_tags(dice: random.Random, number: int) -> dict[str, str]:
    """A street's class, and sometimes a direction, a limit, a surface or what shuts it."""
    tags = {"highway": dice.choice(CLASSES), "name": f"Street \"{number}\", south"}
    tags |= dice.choice(({}, {}, {}, {"oneway": "yes"}, {"oneway": "-1"}, {"maxspeed": "30"}, {"maxspeed": "20 mph"}, {"surface": "cobblestone"}))
    if dice.random() < 0.03:
        tags["access"] = dice.choice(("private", "no"))
    return tags


def town(path: pathlib.Path, side: int, seed: int = 1) -> pathlib.Path:
    """A town of side by side crossings, each moved a little, one node between two crossings of a row; streets along rows and columns, a footway and a house among them."""
    dice = random.Random(seed)
    count = side * side
    nodes = {1 + row * side + column: (13.4 + (column + dice.uniform(-.3, .3)) * STEP, 52.5 + (row + dice.uniform(-.3, .3)) * STEP * 0.6) for row in range(side) for column in range(side)}
    ways: list[Way] = []
    for row in range(side):
        refs = [1 + row * side]
        for column in range(1, side):
            left, right = refs[-1], 1 + row * side + column
            between = count + len(nodes)
            nodes[between] = tuple((a + b) / 2 + dice.uniform(-.1, .1) * STEP for a, b in zip(nodes[left], nodes[right]))
            refs += [between, right]
        ways.append((refs, street_tags(dice, row)))
    for column in range(side):
        refs = [1 + row * side + column for row in range(side)]
        for first in range(0, side - 1, 7):
            ways.append((refs[first:first + 8], street_tags(dice, side + column)))
    ways.append(([1, side + 2], {"highway": "footway"}))
    ways.append(([1, 2, side + 2, 1], {"building": "yes"}))
    ways.append(([side + 1, side + 2, 2 * side + 2, 2 * side + 1, side + 1], {"highway": "residential", "junction": "roundabout"}))
    return write_map(path, nodes, ways)
