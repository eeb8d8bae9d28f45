"""OSRM's HTTP interface, version 1: its addresses, options, errors and answers, for the services `nearest`, `table` and `route`.

A service is an entry of `SERVICES`: a function from a request to a question, whose `answer` is called in a turn.
"""
import math
import re
from collections.abc import Callable
from dataclasses import dataclass, field
from typing import Any, Protocol
from urllib.parse import unquote_to_bytes

from polyline import decode, encode

from globe import metres
from maps import Bearing, Map, Place
from pools import Turn
from roadmark import Arc

MOST_TABLE, MOST_ROUTE, MOST_NEAREST, MOST_ALTERNATIVES, MOST_COORDINATES = 100, 100, 100, 3, 500
NUMBER = r"[+-]?(?:\d{1,15}(?:\.\d{0,20})?|\.\d{1,20})(?:[eE][+-]?\d{1,3})?"
COORDINATE = re.compile(rf"({NUMBER}),({NUMBER})")
POLYLINE = re.compile(r"polyline(6?)\(([?-~]+)\)")


class Wrong(Exception):
    """A request that is answered by one of OSRM's codes, with status 400 unless said, and the version in which that is so, if it is of one."""

    def __init__(self, code: str, message: str, status: int = 400, version: int | None = None) -> None:
        self.code, self.message, self.status, self.version = code, message, status, version
        super().__init__(message)


@dataclass
class Reply:
    """A version, and what was answered in it."""

    version: int | None
    body: dict[str, Any]


class Question(Protocol):
    # Where False no session is needed, and the version is the one that is shown.
    needs_session: bool

    def answer(self, turn: Turn | None) -> Reply: ...


@dataclass
class Request:
    """What every service has. A list of an option has an entry for each coordinate."""

    coordinates: list[tuple[float, float]]
    options: dict[str, str] = field(default_factory=dict)
    bearings: list[Bearing | None] = field(default_factory=list)
    radiuses: list[float] = field(default_factory=list)
    hints: list[str] = field(default_factory=list)
    generate_hints: bool = True
    skip_waypoints: bool = False


# Reading an address.

def decoded(text: str) -> str:
    try:
        return unquote_to_bytes(text).decode("utf-8")
    except UnicodeDecodeError as fault:
        raise Wrong("InvalidUrl", f"URL string malformed close to position {fault.start}") from None


def coordinates_of(text: str) -> list[tuple[float, float]]:
    polyline = POLYLINE.fullmatch(text)
    position = 0
    try:
        if polyline:
            points = decode(polyline[2], 6 if polyline[1] else 5, geojson=True)
        else:
            points = []
            for part in text.split(";"):
                matched = COORDINATE.fullmatch(part)
                if not matched:
                    raise ValueError(part)
                points.append((float(matched[1]), float(matched[2])))
                position += len(part) + 1
    except (ValueError, IndexError, OverflowError):
        raise Wrong("InvalidQuery", f"Query string malformed close to position {position}") from None
    if len(points) > MOST_COORDINATES:
        raise Wrong("TooBig", f"Number of coordinates {len(points)} is higher than current maximum ({MOST_COORDINATES})")
    if not all(abs(lon) <= 180 and abs(lat) <= 90 for lon, lat in points):
        raise Wrong("InvalidValue", "Invalid coordinate value.")
    return points


def number_of(text: str) -> float:
    if not re.fullmatch(NUMBER, text) or not math.isfinite(float(text)):
        raise ValueError(text)
    return float(text)


def whole(text: str) -> int:
    if not re.fullmatch(r"\d{1,10}", text):
        raise ValueError(text)
    return int(text)


def truth(text: str) -> bool:
    return {"true": True, "false": False}[text]


def bearing_of(text: str) -> Bearing | None:
    if not text:
        return None
    degrees, spread = text.split(",")
    bearing = Bearing(whole(degrees), whole(spread))
    if bearing.degrees > 360 or bearing.range > 180:
        raise Wrong("InvalidOptions", "Bearings are 0 to 360 degrees, with a range of 0 to 180.")
    return bearing


def radius_of(text: str) -> float:
    if text in ("", "unlimited"):
        return math.inf
    radius = number_of(text)
    if radius < 0:
        raise ValueError(text)
    return radius


def one_of(*values: str) -> Callable[[str], str]:
    def read(text: str) -> str:
        if text not in values:
            raise ValueError(text)
        return text
    return read


def hint_of(text: str) -> str:
    if not re.fullmatch(r"[\w=-]{0,200}", text, re.ASCII):
        raise ValueError(text)
    return text


def some(read: Callable[[str], Any]) -> Callable[[str], list]:
    """A list, an entry for each coordinate, with semicolons between."""
    return lambda text: [read(part) for part in text.split(";")]


# Options of every service. Nodes have no sides and the network no classes, so `approaches` and `snapping` change nothing, and `exclude` names a class that isn't there.
GENERAL: dict[str, Callable[[str], Any]] = {
    "bearings": some(bearing_of), "radiuses": some(radius_of), "hints": some(hint_of), "generate_hints": truth, "skip_waypoints": truth,
    "approaches": some(one_of("", "curb", "unrestricted", "opposite")), "snapping": one_of("default", "any"), "exclude": str,
}
EACH = ("bearings", "radiuses", "hints", "approaches")


def options_of(query: str, known: dict[str, Callable[[str], Any]], before: int) -> dict[str, Any]:
    """The values of all options, the last one of a name."""
    values: dict[str, Any] = {}
    position = before + 1
    for part in query.split("&") if query else []:
        name, equals, text = part.partition("=")
        try:
            if not equals:
                raise ValueError(part)
            values[name] = (GENERAL | known)[name](decoded(text))
        except (KeyError, ValueError):
            raise Wrong("InvalidQuery", f"Query string malformed close to position {position + len(name) + len(equals)}") from None
        position += len(part) + 1
    return values


def request_of(coordinates: str, query: str, known: dict[str, Callable[[str], Any]]) -> tuple[Request, dict[str, Any]]:
    """What an address asks for: what all services have, and the service's own options."""
    text = re.sub(r"\.json$", "", decoded(coordinates))
    request = Request(coordinates_of(text))
    values = options_of(query, known, len(text))
    if values.pop("exclude", None) is not None:
        raise Wrong("InvalidValue", "Exclude flag combination is not supported.")
    for name in EACH:
        if name in values and len(values[name]) != len(request.coordinates):
            raise Wrong("InvalidOptions", f"Number of elements in {name} size {len(values[name])} does not match coordinate size {len(request.coordinates)}")
    for name in ("approaches", "snapping"):
        values.pop(name, None)
    for name in ("bearings", "radiuses", "hints", "generate_hints", "skip_waypoints"):
        if name in values:
            setattr(request, name, values.pop(name))
    return request, values


# From positions to nodes.

def snapped(places: Map, request: Request, index: int, count: int = 1) -> list[Place]:
    """The nodes that coordinate number `index` means."""
    lon, lat = request.coordinates[index]
    if request.hints and request.hints[index] and count == 1:
        try:
            node = places.hinted(request.hints[index])
        except ValueError:
            raise Wrong("InvalidValue", f"Invalid hint for coordinate {index}.") from None
        if node is not None:
            return [Place(node, float(metres(lon, lat, *places.location(node))))]
    found = places.near(lon, lat, count, request.radiuses[index] if request.radiuses else math.inf, request.bearings[index] if request.bearings else None)
    if not found:
        raise Wrong("NoSegment", f"Could not find a matching segment for coordinate {index}")
    return found


def waypoint(places: Map, request: Request, place: Place) -> dict[str, Any]:
    told: dict[str, Any] = {"hint": places.hint(place.node)} if request.generate_hints else {}
    return {**told, "distance": round(place.metres, 6), "name": places.name(place.node), "location": places.location(place.node)}


class Nearest:
    """`nearest`: the nodes nearest to a position."""

    needs_session = False

    def __init__(self, places: Map, coordinates: str, query: str) -> None:
        request, own = request_of(coordinates, query, {"number": whole})
        count = own.get("number", 1)
        if len(request.coordinates) != 1:
            raise Wrong("InvalidOptions", "Only one input coordinate is supported")
        if count < 1:
            raise Wrong("InvalidOptions", "Number of results must be at least one.")
        if count > MOST_NEAREST:
            raise Wrong("TooBig", f"Number of results {count} is higher than current maximum ({MOST_NEAREST})")
        found = snapped(places, request, 0, count)
        self.waypoints = [{"nodes": [int(places.osm[place.node - 1]), 0], **waypoint(places, request, place)} for place in found]

    def answer(self, turn: Turn | None) -> Reply:
        return Reply(None, {"code": "Ok", "waypoints": self.waypoints})


def indices(text: str) -> list[int] | None:
    return None if text == "all" else [whole(part) for part in text.split(";")]


def annotations_of(text: str) -> set[str]:
    wanted = text.split(",")
    if not set(wanted) <= {"duration", "distance"}:
        raise ValueError(text)
    return set(wanted)


TABLE = {"sources": indices, "destinations": indices, "annotations": annotations_of, "fallback_speed": number_of, "fallback_coordinate": one_of("input", "snapped"), "scale_factor": number_of}
ANNOTATION = {"time": "duration", "distance": "distance"}


class Table:
    """`table`: from each source to each destination."""

    needs_session = True

    def __init__(self, places: Map, coordinates: str, query: str) -> None:
        self.places = places
        self.request, own = request_of(coordinates, query, TABLE)
        count = len(self.request.coordinates)
        if count < 2:
            raise Wrong("InvalidOptions", "Number of coordinates needs to be at least two.")
        if count > MOST_TABLE:
            raise Wrong("TooBig", "Too many table coordinates")
        self.sources, self.targets = (self.picked(own, name) for name in ("sources", "destinations"))
        self.speed, self.factor = own.get("fallback_speed"), own.get("scale_factor", 1.0)
        self.from_input = own.get("fallback_coordinate", "input") == "input"
        if self.speed is not None and not self.speed > 0:
            raise Wrong("InvalidOptions", "fallback_speed must be greater than 0.")
        if not self.factor > 0:
            raise Wrong("InvalidOptions", "scale_factor must be greater than 0.")
        told = ANNOTATION[places.by]
        if own.get("annotations", {"duration"}) != {told}:
            raise Wrong("NotImplemented", f"This network's lengths are by {places.by}: annotations={told} alone is supported.")
        self.snapped = [snapped(places, self.request, index)[0] for index in range(count)]

    def picked(self, own: dict[str, Any], name: str) -> list[int]:
        count = len(self.request.coordinates)
        given = own.get(name)
        if given is not None and any(index >= count for index in given):
            raise Wrong("InvalidOptions", f"An index of {name} is not below the number of coordinates, {count}")
        if given is not None and len(given) > MOST_TABLE:
            raise Wrong("TooBig", "Too many table coordinates")
        return list(range(count)) if given is None else given

    def answer(self, turn: Turn | None) -> Reply:
        assert turn is not None
        version, rows = turn.session.table([self.snapped[index].node for index in self.sources], [self.snapped[index].node for index in self.targets], seconds=turn.left)
        fallen: list[list[int]] = []
        values = [[self.value(row, column, length, fallen) for column, length in enumerate(lengths)] for row, lengths in enumerate(rows)]
        body: dict[str, Any] = {"code": "Ok", f"{ANNOTATION[self.places.by]}s": values}
        if not self.request.skip_waypoints:
            waypoints = [waypoint(self.places, self.request, place) for place in self.snapped]
            body |= {"sources": [waypoints[index] for index in self.sources], "destinations": [waypoints[index] for index in self.targets]}
        return Reply(version, body if self.speed is None else {**body, "fallback_speed_cells": fallen})

    def value(self, row: int, column: int, length: int | None, fallen: list[list[int]]) -> float | None:
        """A cell: seconds or metres. Where there is no walk it is by the straight line, if asked for so."""
        by_time = self.places.by == "time"
        if length is None and self.speed is not None and by_time:
            fallen.append([row, column])
            ends = self.sources[row], self.targets[column]
            points = [self.request.coordinates[end] if self.from_input else self.places.location(self.snapped[end].node) for end in ends]
            return round(float(metres(*points[0], *points[1])) / self.speed * self.factor, 1)
        return None if length is None else round(length / 10 * (self.factor if by_time else 1), 1)


def alternatives_of(text: str) -> int:
    return truth(text) if text in ("true", "false") else whole(text)


def route_annotations_of(text: str) -> set[str]:
    if text == "false":
        return set()
    wanted = set(text.split(","))
    if text != "true" and not wanted <= {"nodes", "distance", "duration", "weight", "speed", "datasources"}:
        raise ValueError(text)
    return wanted


ROUTE = {"alternatives": alternatives_of, "steps": truth, "geometries": one_of("polyline", "polyline6", "geojson"), "overview": one_of("simplified", "full", "false"),
         "annotations": route_annotations_of, "continue_straight": one_of("default", "true", "false"), "waypoints": some(whole)}
# What a route tells of its arcs in a network by time, and in one by distance, which has no times.
OF_ARCS = {"time": {"nodes", "distance", "duration", "weight", "speed"}, "distance": {"nodes", "distance", "weight"}}


@dataclass
class Leg:
    """A way from one place to another: its points, the OSM nodes of the network that it meets, and for each of its arcs its metres and its length in the network's tenths."""

    points: list[list[float]]
    nodes: list[int]
    metres: list[float] = field(default_factory=list)
    tenths: list[int] = field(default_factory=list)

    def add(self, other: "Leg") -> None:
        """Goes on by another, which begins where this one ends."""
        self.points += other.points[1:]
        self.nodes += other.nodes[1:]
        self.metres += other.metres
        self.tenths += other.tenths


class Route:
    """`route`: the shortest way from each coordinate to the next."""

    needs_session = True

    def __init__(self, places: Map, coordinates: str, query: str) -> None:
        self.places = places
        self.request, own = request_of(coordinates, query, ROUTE)
        count = len(self.request.coordinates)
        if count < 2:
            raise Wrong("InvalidOptions", "Number of coordinates needs to be at least two.")
        if count > MOST_ROUTE:
            raise Wrong("TooBig", f"Number of entries {count} is higher than current maximum ({MOST_ROUTE})")
        if own.get("alternatives", 0) > MOST_ALTERNATIVES:
            raise Wrong("TooBig", f"Requested number of alternatives is higher than current maximum ({MOST_ALTERNATIVES})")
        if own.get("steps"):
            raise Wrong("NotImplemented", "This server tells no turns: steps=false alone is supported.")
        if own.get("continue_straight") == "true":
            raise Wrong("NotImplemented", "This network has no turns: continue_straight=true is not supported.")
        self.ends = own.get("waypoints", list(range(count)))
        if self.ends[0] != 0 or self.ends[-1] != count - 1 or self.ends != sorted(set(self.ends)):
            raise Wrong("InvalidOptions", "Waypoints ascend from the first coordinate to the last.")
        self.geometries, self.has_geometry = own.get("geometries", "polyline"), own.get("overview") != "false"
        self.annotations = self.annotated(own.get("annotations", set()))
        self.snapped = [snapped(places, self.request, index)[0] for index in range(count)]

    def annotated(self, wanted: set[str]) -> set[str]:
        known = OF_ARCS[self.places.by]
        if not wanted <= known | {"true"}:
            raise Wrong("NotImplemented", f"This network's lengths are by {self.places.by}: annotations are {', '.join(sorted(known))}.")
        return known if "true" in wanted else wanted

    def answer(self, turn: Turn | None) -> Reply:
        assert turn is not None
        version, ways = self.ways(turn)
        if any(length is None for length, _ in ways):
            raise Wrong("NoRoute", "Impossible route between points", version=version)
        legs = [self.leg(place.node, arcs) for place, (_, arcs) in zip(self.snapped, ways)]
        told = [self.joined(legs[begin:end]) for begin, end in zip(self.ends, self.ends[1:])]
        whole_way = self.joined(legs)
        route = {"legs": [self.told(leg) for leg in told], **self.sums(whole_way), "weight_name": ANNOTATION[self.places.by]}
        if self.has_geometry:
            route["geometry"] = self.geometry(whole_way.points)
        body: dict[str, Any] = {"code": "Ok", "routes": [route]}
        if not self.request.skip_waypoints:
            body["waypoints"] = [waypoint(self.places, self.request, self.snapped[index]) for index in self.ends]
        return Reply(version, body)

    def ways(self, turn: Turn) -> tuple[int, list[tuple[int | None, list[Arc]]]]:
        """The way from each place to the next, all in one version: while others change the network, those of earlier versions are asked for again."""
        pairs = [(one.node, next_one.node) for one, next_one in zip(self.snapped, self.snapped[1:])]
        answers = [turn.session.route(*pair, seconds=turn.left) for pair in pairs]
        while len({version for version, *_ in answers}) > 1:
            newest = max(version for version, *_ in answers)
            answers = [answer if answer[0] == newest else turn.session.route(*pair, seconds=turn.left) for answer, pair in zip(answers, pairs)]
        return answers[0][0], [(length, arcs) for _, length, arcs in answers]

    def leg(self, node: int, arcs: list[Arc]) -> Leg:
        leg = Leg([self.places.location(node)], [int(self.places.osm[node - 1])])
        for arc in arcs:
            points, length = self.places.drawn(arc)
            leg.add(Leg(points, [0, int(self.places.osm[arc.head - 1])], [length], [arc.length]))
        return leg

    def joined(self, legs: list[Leg]) -> Leg:
        way = Leg(legs[0].points[:1], legs[0].nodes[:1])
        for leg in legs:
            way.add(leg)
        return way

    def sums(self, way: Leg) -> dict[str, float]:
        weight = round(sum(way.tenths) / 10, 1)
        return {"distance": round(sum(way.metres), 1), "duration": weight, "weight": weight} if self.places.by == "time" else {"distance": weight, "weight": weight}

    def told(self, leg: Leg) -> dict[str, Any]:
        weights = [round(tenths / 10, 1) for tenths in leg.tenths]
        by_time = self.places.by == "time"
        speeds = [round(length / weight, 1) if weight else 0 for length, weight in zip(leg.metres, weights)]
        values = {"nodes": leg.nodes, "distance": leg.metres if by_time else weights, "duration": weights, "weight": weights, "speed": speeds}
        told = {"steps": [], "summary": "", **self.sums(leg)}
        return {**told, "annotation": {name: values[name] for name in sorted(self.annotations)}} if self.annotations else told

    def geometry(self, points: list[list[float]]) -> Any:
        points = points if len(points) > 1 else points * 2
        if self.geometries == "geojson":
            return {"type": "LineString", "coordinates": points}
        return encode(points, 6 if self.geometries == "polyline6" else 5, geojson=True)


SERVICES: dict[str, Callable[[Map, str, str], Question]] = {"nearest": Nearest, "table": Table, "route": Route}


def question_of(places: Map, path: str, query: str) -> Question:
    """What an address of OSRM's asks: /SERVICE/VERSION/PROFILE/COORDINATES. As in OSRM the profile may be any word."""
    parts = path.removeprefix("/").split("/", 3)
    if len(parts) != 4 or not parts[3] or not re.fullmatch(r"v\d{1,9}", parts[1]) or not re.fullmatch(r"[\w-]{1,64}", parts[2], re.ASCII):
        raise Wrong("InvalidUrl", f"URL string malformed close to position {len(parts[0]) + 2}")
    service, version = parts[0], parts[1]
    if service not in SERVICES:
        raise Wrong("InvalidService", f"Service {service[:64]} not found!")
    if version != "v1":
        raise Wrong("InvalidVersion", f"Service {service} not found for version: {version}")
    return SERVICES[service](places, parts[3], query)
