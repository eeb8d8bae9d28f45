"""Tests of the gateway's `route`: OSRM's own requests and errors, its options, and random ways beside osmnx's reading of the same map and networkx's Dijkstra, also while arcs are closed."""
import pathlib
import random
from typing import Any

from checks import Checks, equal, true
from of_maps import read_by_osmnx
from stand import Stand

# The requests of OSRM's documentation (http.md, service route): three places in Berlin, and the same as a polyline.
THREE = "13.388860,52.517037;13.397634,52.529407;13.428555,52.523219"
ROUTE = f"route/v1/driving/{THREE}"
ENCODED = "route/v1/driving/polyline(ofp_Ik_vpAilAyu@te@g`E)"
TWO = "route/v1/driving/13.4,52.5;13.41,52.51"
ANNOTATIONS = {"nodes", "distance", "duration", "weight", "speed"}

# Addresses, with the code of the answer; the status is 400.
ERRORS = (
    ("route/v1/driving/13.4,52.5", "InvalidOptions"), ("route/v1/driving/", "InvalidUrl"), ("route/v2/driving/13.4,52.5;13.41,52.5", "InvalidVersion"),
    ("route/v1/driving/13.4;13.41,52.5", "InvalidQuery"), ("route/v1/driving/13.4,52.5;;13.41,52.5", "InvalidQuery"), ("route/v1/driving/polyline(~)", "InvalidQuery"),
    ("route/v1/driving/181,52.5;13.41,52.5", "InvalidValue"), ("route/v1/driving/13.4,52.5;13.41,-90.5", "InvalidValue"), (f"{TWO}?exclude=ferry", "InvalidValue"), (f"{TWO}?hints=abc;", "InvalidValue"),
    ("route/v1/driving/" + ";".join(["13.4,52.5"] * 101), "TooBig"), (f"{TWO}?alternatives=4", "TooBig"), (f"{TWO}?radiuses=0.0001;unlimited", "NoSegment"), (f"{TWO}?radiuses=5", "InvalidOptions"),
    (f"{TWO}?bearings=0,20", "InvalidOptions"), (f"{TWO}?bearings=400,20;", "InvalidOptions"), (f"{TWO}?approaches=curb", "InvalidOptions"), (f"{TWO}?radiuses=-1;1", "InvalidQuery"),
    (f"{TWO}?steps=true", "NotImplemented"), (f"{TWO}?steps=1", "InvalidQuery"), (f"{TWO}?continue_straight=true", "NotImplemented"), (f"{TWO}?continue_straight=no", "InvalidQuery"),
    (f"{TWO}?annotations=datasources", "NotImplemented"), (f"{TWO}?annotations=metres", "InvalidQuery"), (f"{TWO}?annotations=", "InvalidQuery"), (f"{TWO}?annotations=true,nodes", "InvalidQuery"),
    (f"{TWO}?geometries=wkt", "InvalidQuery"), (f"{TWO}?overview=true", "InvalidQuery"), (f"{TWO}?alternatives=-1", "InvalidQuery"), (f"{TWO}?alternatives=yes", "InvalidQuery"),
    (f"{ROUTE}?waypoints=0;1", "InvalidOptions"), (f"{ROUTE}?waypoints=1;2", "InvalidOptions"), (f"{ROUTE}?waypoints=0;2;2", "InvalidOptions"), (f"{ROUTE}?waypoints=0;x", "InvalidQuery"),
    (f"{ROUTE}?waypoints=0;3", "InvalidOptions"), (f"{ROUTE}?sources=0", "InvalidQuery"), (f"{TWO}?overview", "InvalidQuery"), (f"{TWO}?", None),
)


def points(text: str) -> list[tuple[float, float]]:
    return [tuple(map(float, point.split(","))) for point in text.split(";")]


class Routes:
    """Tests over one stand, with the network as the test reads it, and the map that it was made of."""

    def __init__(self, stand: Stand, network: Any, path: pathlib.Path) -> None:
        self.stand, self.network, self.path = stand, network, path

    def documented(self) -> None:
        """The form of an answer, and ways from place to place that are as long as a search says, along arcs that are there, and drawn along them."""
        nodes = [self.network.nearest(point)[0] for point in points(THREE)]
        answer = self.stand.get(f"{ROUTE}?geometries=geojson&annotations=nodes,duration,distance&overview=full")
        equal((answer.status, answer.version, set(answer.json)), (200, self.stand.get("version").json["shown"], {"code", "routes", "waypoints"}))
        [route] = answer.json["routes"]
        equal(set(route), {"legs", "distance", "duration", "weight", "weight_name", "geometry"})
        lengths = [self.network.lengths([one], [other])[0][0] for one, other in zip(nodes, nodes[1:])]
        equal([leg["duration"] for leg in route["legs"]], lengths)
        equal((route["duration"], route["weight"], route["weight_name"]), (round(sum(lengths), 1), round(sum(lengths), 1), "duration"))
        for leg, ends, length in zip(route["legs"], zip(nodes, nodes[1:]), lengths):
            equal(set(leg), {"steps", "summary", "distance", "duration", "weight", "annotation"})
            self.along(leg["annotation"], ends, length)
            equal((leg["steps"], leg["summary"], round(sum(leg["annotation"]["distance"]), 1)), ([], "", leg["distance"]))
        equal([set(waypoint) for waypoint in answer.json["waypoints"]], [{"hint", "distance", "name", "location"}] * 3)
        equal([tuple(waypoint["location"]) for waypoint in answer.json["waypoints"]], [self.network.places[node] for node in nodes])
        plain, encoded = (self.stand.get(f"{path}?overview=false").json for path in (ROUTE, ENCODED))
        equal((encoded["routes"], set(encoded["routes"][0])), (plain["routes"], {"legs", "distance", "duration", "weight", "weight_name"}))
        equal(encoded["routes"][0]["legs"], [{name: value for name, value in leg.items() if name != "annotation"} for leg in route["legs"]])

    def along(self, annotation: dict, ends: tuple[int, int], length: float) -> None:
        """A leg is a walk between its ends over arcs of these lengths."""
        numbers = {osm: node for node, osm in self.network.osm.items()}
        nodes = [numbers[osm] for osm in annotation["nodes"]]
        equal((nodes[0], nodes[-1], len(set(nodes))), (*ends, len(nodes)))
        steps = {(tail, head, arc_length / 10) for tail, head, arc_length in self.network.arcs}
        equal([step for step in zip(nodes, nodes[1:], annotation["duration"]) if step not in steps], [])
        equal((len(annotation["duration"]), round(sum(annotation["duration"]), 1)), (len(nodes) - 1, length))

    def options(self) -> None:
        from polyline import decode
        full = self.stand.get(f"{ROUTE}?geometries=geojson").json["routes"][0]
        drawn = full["geometry"]["coordinates"]
        for query, precision in (("", 5), ("?geometries=polyline6&alternatives=3", 6), ("?overview=full&steps=false&continue_straight=false&alternatives=true", 5)):
            told = decode(self.stand.get(ROUTE + query).json["routes"][0]["geometry"], precision, geojson=True)
            equal(len(told), len(drawn), query)
            # A coordinate in the middle of two is rounded to either.
            true(all(abs(one - other) < 0.501 * 10 ** -precision for pair in zip(told, drawn) for one, other in zip(*pair)), query)
        through = self.stand.get(f"{ROUTE}?waypoints=0;2&overview=false&annotations=true&skip_waypoints=true").json
        equal(set(through), {"code", "routes"})
        [route], [leg] = through["routes"], through["routes"][0]["legs"]
        equal(("geometry" in route, leg["duration"], leg["distance"], set(leg["annotation"])), (False, full["duration"], full["distance"], ANNOTATIONS))
        for query, told in (("annotations=false", None), ("annotations=speed,nodes", {"speed", "nodes"}), ("annotations=true", ANNOTATIONS)):
            equal([set(leg["annotation"]) if told else "annotation" in leg for leg in self.stand.get(f"{ROUTE}?{query}").json["routes"][0]["legs"]], [told or False] * 2, query)
        there = self.stand.get("route/v1/driving/13.4,52.5;13.4,52.5?geometries=geojson&annotations=nodes").json["routes"][0]
        equal((there["duration"], there["distance"], len(there["legs"][0]["annotation"]["nodes"]), len(there["geometry"]["coordinates"])), (0, 0, 1, 2))
        hints = ";".join(waypoint["hint"] for waypoint in self.stand.get(ROUTE).json["waypoints"])
        again = self.stand.get(f"route/v1/driving/13.41,52.51;13.41,52.51;13.41,52.51?hints={hints}&generate_hints=false&geometries=geojson&radiuses=;;unlimited&approaches=curb;;").json
        equal((again["routes"], [set(waypoint) for waypoint in again["waypoints"]]), ([full], [{"distance", "name", "location"}] * 3))

    def errors(self) -> None:
        for path, code in ERRORS:
            answer = self.stand.get(path)
            equal((answer.status, answer.json["code"]), (400, code) if code else (200, "Ok"), path[:80])
            true(not code or set(answer.json) == {"code", "message"}, path[:80])

    def beside_networkx(self) -> None:
        """Three hundred random ways, before and while arcs are closed and changed."""
        dice = random.Random(11)
        drawn = read_by_osmnx(self.path, self.stand.folder / "only_roads.osm")
        lengths = [length for _, _, length in self.network.arcs]
        self.ways(dice, drawn, lengths, set(), 150)
        # No road leaves ten nodes then.
        left = set(dice.sample(sorted(self.network.osm), 10))
        closed = {arc for arc, (tail, _, _) in enumerate(self.network.arcs, 1) if tail in left} | set(dice.sample(range(1, len(lengths) + 1), 60))
        changed = {arc: dice.randrange(1, 900) for arc in dice.sample(range(1, len(lengths) + 1), 60)}
        done = self.stand.change(*({"close": arc} for arc in closed), *({"set": arc, "length": length} for arc, length in changed.items()))
        equal(done.status, 200, str(done.body))
        self.stand.until(lambda: self.stand.get(f"version?version={done.version}").status == 200, "the changes are shown")
        self.ways(dice, drawn, [changed.get(arc, length) for arc, length in enumerate(lengths, 1)], closed, 150)
        self.stand.change(*({"reopen": arc} for arc in closed), *({"set": arc, "length": lengths[arc - 1]} for arc in changed))

    def ways(self, dice: random.Random, drawn: Any, lengths: list[int], closed: set[int], count: int) -> None:
        import networkx
        graph = networkx.MultiDiGraph()
        graph.add_nodes_from(self.network.osm.values())
        for arc, ((tail, head, _), length) in enumerate(zip(self.network.arcs, lengths), 1):
            if arc not in closed:
                graph.add_edge(self.network.osm[tail], self.network.osm[head], weight=length)
        numbers = {(round(place["x"], 7), round(place["y"], 7)): node for node, place in drawn.nodes(data=True)}
        unchanged = lengths == [length for _, _, length in self.network.arcs]
        none = arcs = 0
        for _ in range(count):
            ends = [(dice.uniform(13.4, 13.42), dice.uniform(52.5, 52.513)) for _ in range(2)]
            source, target = (self.network.osm[self.network.nearest(end)[0]] for end in ends)
            answer = self.stand.get(f"route/v1/driving/{';'.join(f'{lon},{lat}' for lon, lat in ends)}?geometries=geojson&overview=full&annotations=true")
            if not networkx.has_path(graph, source, target):
                equal((answer.status, answer.json["code"]), (400, "NoRoute"))
                none += 1
                continue
            equal(answer.status, 200)
            [route] = answer.json["routes"]
            annotation = route["legs"][0]["annotation"]
            nodes, tenths = annotation["nodes"], [round(10 * seconds) for seconds in annotation["duration"]]
            # The arcs meet from end to end, and their lengths add up to networkx's.
            equal((nodes[0], nodes[-1], len(set(nodes))), (source, target, len(nodes)))
            equal([step for step in zip(nodes, nodes[1:], tenths) if not any(edge["weight"] == step[2] for edge in (graph.get_edge_data(*step[:2]) or {}).values())], [])
            equal((sum(tenths), round(10 * route["duration"])), (networkx.dijkstra_path_length(graph, source, target),) * 2)
            self.follows([numbers[tuple(point)] for point in route["geometry"]["coordinates"]], nodes, route, drawn, unchanged)
            arcs += len(tenths)
        print(f"  {count} ways of {arcs} arcs as networkx has them, {none} of them none")

    def follows(self, line: list[int], nodes: list[int], route: dict, drawn: Any, unchanged: bool) -> None:
        """The line goes along roads of the map from node to node, and is as long as told, up to a tenth of a metre for each arc, and as slow, up to half a tenth of a second."""
        if len(nodes) == 1:
            return equal(line, nodes * 2)
        met = iter(line)
        true(all(node in met for node in nodes), f"{nodes} are not met in their order by {line}")
        equal([step for step in zip(line, line[1:]) if not drawn.has_edge(*step)], [], "steps where the map has no road")
        edges = [min(drawn.get_edge_data(*step).values(), key=lambda edge: edge["tenths"]) for step in zip(line, line[1:])]
        metres, tenths = sum(edge["length"] for edge in edges), sum(edge["tenths"] for edge in edges)
        true(abs(metres - route["distance"]) < 0.1 * len(nodes) + 0.001 * metres, f"{metres} m are drawn, {route['distance']} m are told")
        true(not unchanged or abs(tenths - 10 * route["duration"]) <= 0.51 * len(nodes), f"{tenths} tenths are drawn, {route['duration']} s are told")


def try_routes(checks: Checks, stand: Stand, network: Any, path: pathlib.Path) -> None:
    routes = Routes(stand, network, path)
    for name in ("documented", "options", "errors", "beside_networkx"):
        checks.run(f"route: {name}", getattr(routes, name))
