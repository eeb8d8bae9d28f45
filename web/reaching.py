"""What lies within reach of a position: `GET /isochrone`."""
from typing import Any
from urllib.parse import parse_qsl

from shapely.geometry import LineString
from shapely.ops import substring

from maps import Map
from osrm import Reply, Request, Wrong, coordinates_of, number_of, snapped
from outlines import Line, outline
from pools import Turn

TENTHS = 10
UNITS = {"time": "seconds", "distance": "metres"}
MOST = {"time": 7_200, "distance": 150_000}
# The lengths of so many arcs at the rim are asked for; those of others are as in the map.
MOST_ASKED = 2_000


def part_of(line: Line, share: float, at_end: bool) -> Line:
    """The beginning of a line, or its end, by the share of its points' way; its last point twice, so that a share of nothing is a line too."""
    points = substring(LineString(line), *((1 - share, 1) if at_end else (0, share)), normalized=True).coords
    return [list(point) for point in (*points, points[-1])]


class Isochrone:
    """The area of all roads that are reached from a position, or from which it is reached, within so many seconds or metres."""

    needs_session = True

    def __init__(self, places: Map, query: str) -> None:
        self.places = places
        try:
            pairs = parse_qsl(query, keep_blank_values=True, strict_parsing=True, max_num_fields=20) if query else []
        except ValueError:
            raise Wrong("InvalidQuery", "Query string malformed") from None
        values = dict(pairs)
        ends = {"from", "to"} & set(values)
        if len(ends) != 1 or set(values) != {*ends, "within"} or len(pairs) != 2:
            raise Wrong("InvalidOptions", "Asked is for from=LON,LAT or to=LON,LAT, and within=NUMBER, once each")
        self.end = ends.pop()
        coordinates = coordinates_of(values[self.end])
        if len(coordinates) != 1:
            raise Wrong("InvalidOptions", "Only one input coordinate is supported")
        try:
            self.within = number_of(values["within"])
        except ValueError:
            raise Wrong("InvalidValue", "within is no number") from None
        if not 0 <= self.within <= MOST[places.by]:
            raise Wrong("TooBig", f"within is 0 to {MOST[places.by]} {UNITS[places.by]}")
        self.place = snapped(places, Request(coordinates), 0)[0]

    def answer(self, turn: Turn | None) -> Reply:
        assert turn is not None
        limit = int(self.within * TENTHS)
        ask = turn.session.reach if self.end == "from" else turn.session.reached
        for _ in range(3):
            version, nodes = ask(self.place.node, limit, seconds=turn.left)
            seen, closed = turn.session.closed(seconds=turn.left)
            if seen == version:
                break
        lines = self.lines(turn, nodes, set(closed), limit)
        here = self.places.location(self.place.node)
        properties = {"within": self.within, "unit": UNITS[self.places.by], "direction": self.end, "nodes": len(nodes), "location": here}
        geometry = {"type": "MultiPolygon", "coordinates": outline(lines or [[here, here]])}
        feature: dict[str, Any] = {"type": "Feature", "properties": properties, "geometry": geometry}
        return Reply(version, {"type": "FeatureCollection", "code": "Ok", "features": [feature]})

    def lines(self, turn: Turn, nodes: dict[int, int], closed: set[int], limit: int) -> list[Line]:
        """The arcs that are reached whole, and of those at the rim the part that is."""
        ends = (self.places.tails, self.places.heads) if self.end == "from" else (self.places.heads, self.places.tails)
        lines, asked = [], 0
        for arc in self.arcs_at(nodes):
            near, other = (int(end[arc - 1]) for end in ends)
            if arc in turn.supposed and turn.supposed[arc] is None or arc in closed and arc not in turn.supposed:
                continue
            line = self.places.line(arc)
            if other not in nodes:
                asked += 1
                length = self.length(turn, arc, asked)
                line = part_of(line, min(1, (limit - nodes[near]) / max(1, length)), self.end == "to")
            lines.append(line)
        return lines

    def arcs_at(self, nodes: dict[int, int]) -> list[int]:
        """The arcs that leave these nodes, or lead to them."""
        if self.end == "from":
            return [arc for node in nodes for arc in self.places.leaving(node)]
        return [arc for node in nodes for arc in self.places.leading(node)]

    def length(self, turn: Turn, arc: int, asked: int) -> int:
        supposed = turn.supposed.get(arc)
        if supposed is not None:
            return supposed
        return turn.session.arc(arc, seconds=turn.left)[1].length if asked <= MOST_ASKED else int(self.places.lengths[arc - 1])
