"""Tests of web/gateway.py: OSRM's own requests, values beside a reading of the network by the test, changes, versions, suppositions, and what goes wrong."""
import heapq
import http.client
import json
import math
import pathlib
import re
import threading

from checks import Checks, equal, from_osm, true
from of_faults import try_faults
from of_front import try_front
from of_outlines import try_outlines
from of_routes import THREE, points, try_routes
from stand import TOKEN, Answer, Stand
from towns import town

# The requests of OSRM's documentation (http.md, services nearest and table), of which the profile is any word.
NEAREST = "nearest/v1/driving/13.388860,52.517037?number=3&bearings=0,20"
TABLE = f"table/v1/driving/{THREE}"
POLYLINE = "polyline(egs_Iq_aqAppHzbHulFzeMe%60EuvKpnCglA)"

# Addresses, with the code and the status of the answer.
ERRORS = (
    ("nearest/v1/driving/13.4", "InvalidQuery", 400), ("nearest/v1/driving/", "InvalidUrl", 400), ("nearest/v1/driving/a,b", "InvalidQuery", 400),
    ("nearest/v1/driving/13.4,52.5;", "InvalidQuery", 400), ("nearest/v1/driving/181,52.5", "InvalidValue", 400), ("nearest/v1/driving/13.4,90.1", "InvalidValue", 400),
    ("nearest/v1/driving/13.4,1e400", "InvalidValue", 400), ("nearest/v1/driving/nan,nan", "InvalidQuery", 400),
    ("nearest/v1/driving/13.4,52.5;13.4,52.5", "InvalidOptions", 400), ("nearest/v1/driving/13.4,52.5?number=0", "InvalidOptions", 400),
    ("nearest/v1/driving/13.4,52.5?number=101", "TooBig", 400), ("nearest/v1/driving/13.4,52.5?number=-1", "InvalidQuery", 400), ("nearest/v1/driving/13.4,52.5?number", "InvalidQuery", 400),
    ("nearest/v1/driving/13.4,52.5?colour=red", "InvalidQuery", 400), ("nearest/v1/driving/13.4,52.5?radiuses=0.0001", "NoSegment", 400),
    ("nearest/v1/driving/13.4,52.5?radiuses=1;2", "InvalidOptions", 400), ("nearest/v1/driving/13.4,52.5?bearings=361,20", "InvalidOptions", 400),
    ("nearest/v1/driving/13.4,52.5?bearings=20", "InvalidQuery", 400), ("nearest/v1/driving/13.4,52.5?exclude=motorway", "InvalidValue", 400),
    ("nearest/v1/driving/13.4,52.5?approaches=left", "InvalidQuery", 400), ("nearest/v1/driving/13.4,52.5?hints=!", "InvalidQuery", 400),
    ("nearest/v2/driving/13.4,52.5", "InvalidVersion", 400), ("nearby/v1/driving/13.4,52.5", "InvalidService", 400), ("nearest/driving/13.4,52.5", "InvalidUrl", 400),
    ("nearest", "InvalidUrl", 400), ("nearest/v1/driv%20ing/13.4,52.5", "InvalidUrl", 400), ("nearest/v1/driving/%ff", "InvalidUrl", 400),
    ("trip/v1/driving/13.4,52.5;13.41,52.5", "InvalidService", 400),
    ("table/v1/driving/13.4,52.5", "InvalidOptions", 400), (f"{TABLE}?sources=3", "InvalidOptions", 400), (f"{TABLE}?sources=0;", "InvalidQuery", 400),
    (f"{TABLE}?annotations=distance", "NotImplemented", 400), (f"{TABLE}?annotations=speed", "InvalidQuery", 400), (f"{TABLE}?fallback_speed=0", "InvalidOptions", 400),
    (f"{TABLE}?scale_factor=-1", "InvalidOptions", 400), (f"{TABLE}?scale_factor=1e999", "InvalidQuery", 400),
    ("table/v1/driving/" + ";".join(["13.4,52.5"] * 101), "TooBig", 400), ("table/v1/driving/" + ";".join(["13.4,52.5"] * 501), "TooBig", 400),
    ("table/v1/driving/polyline(~)", "InvalidQuery", 400), ("table/v1/driving/polyline()", "InvalidQuery", 400),
    ("isochrone", "InvalidOptions", 400), ("isochrone?from=13.4,52.5", "InvalidOptions", 400), ("isochrone?from=13.4,52.5&within=x", "InvalidValue", 400),
    ("isochrone?from=13.4,52.5&within=7201", "TooBig", 400), ("isochrone?from=13.4,52.5&to=13.4,52.5&within=1", "InvalidOptions", 400), ("isochrone?from=13.4&within=1", "InvalidQuery", 400),
    ("version?version=x", "InvalidValue", 400), ("arcs?bbox=1,2,3", "InvalidOptions", 400), ("page/none.js", "NotFound", 404),
    ("page/", "Forbidden", 403), ("nearest/v1/driving/" + "1" * 40_000, None, 400), ("nearest/v1/driving/13.4,52.5?" + "x=y&" * 1500, "InvalidQuery", 400),
)
BODIES = (b"", b"{", b"[]", b"null", b"{}", b'{"changes": []}', b'{"changes": {}}', b'{"changes": [7]}', b'{"changes": [{}]}', b'{"changes": [{"close": "7"}]}', b'{"changes": [{"close": -7}]}',
          b'{"changes": [{"close": 7.0}]}', b'{"changes": [{"close": true}]}', b'{"changes": [{"close": 99999999999999999999}]}', b'{"changes": [{"close": 7, "length": 3}]}',
          b'{"changes": [{"set": 7}]}', b'{"changes": [{"lay": [1], "length": 3}]}', b'{"changes": [{"quit": 7}]}', b'{"changes": [{"close": 7}], "more": 1}', b"[" * 30_000, b"\xff\xfe",
          b'{"changes": [{"close\\nset": 7}]}', json.dumps({"changes": [{"set": 7, "length": 1}] * 254}).encode())


class Network:
    """The network as this test reads it."""

    def __init__(self, folder: pathlib.Path) -> None:
        rows = [line.split(",") for line in (folder / "nodes.csv").read_text().splitlines()[1:]]
        self.osm = {int(row[0]): int(row[1]) for row in rows}
        self.places = {int(row[0]): (float(row[2]), float(row[3])) for row in rows}
        self.arcs = [tuple(map(int, line.split()[1:])) for line in (folder / "network.gr").read_text().splitlines() if line.startswith("a ")]

    def metres(self, a: tuple[float, float], b: tuple[float, float]) -> float:
        """By the spherical law of cosines."""
        (lon1, lat1), (lon2, lat2) = (map(math.radians, point) for point in (a, b))
        return 6_371_009 * math.acos(min(1, math.sin(lat1) * math.sin(lat2) + math.cos(lat1) * math.cos(lat2) * math.cos(lon2 - lon1)))

    def nearest(self, point: tuple[float, float]) -> list[int]:
        return sorted(self.places, key=lambda node: self.metres(point, self.places[node]))

    def row(self, node: int, backwards: bool = False) -> dict[int, int]:
        """The least lengths from a node, or to it, by Dijkstra's search."""
        ways: dict[int, list[tuple[int, int]]] = {}
        for tail, head, length in self.arcs:
            ways.setdefault(head if backwards else tail, []).append((tail if backwards else head, length))
        final: dict[int, int] = {}
        queue = [(0, node)]
        while queue:
            length, here = heapq.heappop(queue)
            if here not in final:
                final[here] = length
                for other, more in ways.get(here, ()):
                    heapq.heappush(queue, (length + more, other))
        return final

    def lengths(self, sources: list[int], targets: list[int]) -> list[list[float | None]]:
        """In seconds."""
        rows = [self.row(source) for source in sources]
        return [[row[target] / 10 if target in row else None for target in targets] for row in rows]

    def reached(self, end: str, node: int, seconds: float) -> set[int]:
        return {other for other, length in self.row(node, end == "to").items() if length <= seconds * 10}


def inside(polygons: list, lon: float, lat: float) -> bool:
    """By the crossings of all rings."""
    crossings = 0
    for ring in (ring for polygon in polygons for ring in polygon):
        for (x1, y1), (x2, y2) in zip(ring, ring[1:]):
            crossings += (y1 > lat) != (y2 > lat) and lon < (x2 - x1) * (lat - y1) / (y2 - y1) + x1
    return crossings % 2 == 1


class Gateways:
    """Tests over one stand."""

    def __init__(self, stand: Stand, network: Network) -> None:
        self.stand, self.network = stand, network

    def nearest(self) -> None:
        answer = self.stand.get(NEAREST.replace("&bearings=0,20", ""))
        equal((answer.status, answer.json["code"], answer.headers["Content-Type"]), (200, "Ok", "application/json; charset=utf-8"))
        found = answer.json["waypoints"]
        equal(set(found[0]), {"nodes", "hint", "distance", "name", "location"})
        point = (13.38886, 52.517037)
        wanted = self.network.nearest(point)[:3]
        equal([waypoint["nodes"] for waypoint in found], [[self.network.osm[node], 0] for node in wanted])
        equal([tuple(waypoint["location"]) for waypoint in found], [self.network.places[node] for node in wanted])
        for waypoint, node in zip(found, wanted):
            true(abs(waypoint["distance"] - self.network.metres(point, self.network.places[node])) < 0.1, f"{waypoint}")
        for path in (NEAREST.replace("?", ".json?"), NEAREST.replace(",", "%2C"), NEAREST + "&generate_hints=false", NEAREST + "&radiuses=unlimited&approaches=curb&snapping=any"):
            equal(self.stand.get(path).status, 200, path)
        true("hint" not in self.stand.get(NEAREST + "&generate_hints=false").json["waypoints"][0], "hints all the same")

    def bearings(self) -> None:
        """A node is taken where an arc leaves it to the north, within 20 degrees: to a node that lies there, as all streets of the town but for small bends do."""
        north = set()
        for tail, head, _ in self.network.arcs:
            (lon1, lat1), (lon2, lat2) = self.network.places[tail], self.network.places[head]
            if lat2 > lat1 and abs(lon2 - lon1) * math.cos(math.radians(lat1)) < math.tan(math.radians(5)) * (lat2 - lat1):
                north.add(self.network.osm[tail])
        numbers = {waypoint["nodes"][0] for waypoint in self.stand.get("nearest/v1/driving/13.41,52.505?number=60&bearings=0,20").json["waypoints"]}
        near = [self.network.osm[node] for node in self.network.nearest((13.41, 52.505))[:30]]
        equal([node for node in near if node in north and node not in numbers], [], "nodes with a street to the north that were not told")
        true(len(numbers) == 60 and any(node not in numbers for node in near), "each node was told")

    def table(self) -> None:
        nodes = [self.network.nearest(point)[0] for point in points(THREE)]
        answer = self.stand.get(TABLE)
        equal((answer.status, answer.version, set(answer.json)), (200, 0, {"code", "durations", "sources", "destinations"}))
        equal(answer.json["durations"], self.network.lengths(nodes, nodes))
        equal([tuple(waypoint["location"]) for waypoint in answer.json["sources"]], [self.network.places[node] for node in nodes])
        for query, sources, targets in (("sources=0", [0], [0, 1, 2]), ("sources=0;2&destinations=1", [0, 2], [1]), ("destinations=all&sources=2;2", [2, 2], [0, 1, 2]),
                                        ("annotations=duration", [0, 1, 2], [0, 1, 2])):
            told = self.stand.get(f"{TABLE}?{query}").json
            equal(told["durations"], self.network.lengths([nodes[index] for index in sources], [nodes[index] for index in targets]), query)
            equal((len(told["sources"]), len(told["destinations"])), (len(sources), len(targets)), query)
        scaled = self.stand.get(f"{TABLE}?scale_factor=2&skip_waypoints=true").json
        equal(scaled, {"code": "Ok", "durations": [[round(value * 2, 1) for value in row] for row in answer.json["durations"]]})
        hints = ";".join(waypoint["hint"] for waypoint in answer.json["sources"])
        equal(self.stand.get(f"table/v1/driving/13.41,52.51;13.41,52.51;13.41,52.51?hints={hints}").json["durations"], answer.json["durations"])

    def polyline(self) -> None:
        told = self.stand.get(f"table/v1/driving/{POLYLINE}?sources=0;1;3&destinations=2;4")
        equal((told.status, len(told.json["durations"]), len(told.json["durations"][0])), (200, 3, 2))
        from osrm import coordinates_of
        # The example of the page on which Google tells the algorithm.
        equal(coordinates_of("polyline(_p~iF~ps|U_ulLnnqC_mqNvxq`@)"), [(-120.2, 38.5), (-120.95, 40.7), (-126.453, 43.252)])

    def fallback(self) -> None:
        """No walk leads to a node whose arcs are closed: its cells are null, or by the straight line."""
        node = next(node for node in self.network.places if sum(head == node for _, head, _ in self.network.arcs) == 1)
        arc = next(number for number, (_, head, _) in enumerate(self.network.arcs, 1) if head == node)
        (lon, lat), other = self.network.places[node], next(place for place in self.network.places if place != node)
        path = f"table/v1/driving/{','.join(map(str, self.network.places[other]))};{lon},{lat}?sources=0&destinations=1"
        body = {"changes": [{"close": arc}], "queries": [path, path + "&fallback_speed=10"]}
        plain, fallen = self.stand.post("suppose", body).json["answers"]
        equal(plain["durations"], [[None]])
        equal(fallen["fallback_speed_cells"], [[0, 0]])
        true(abs(fallen["durations"][0][0] - self.network.metres(self.network.places[other], (lon, lat)) / 10) < 0.1, f"{fallen}")
        none = self.stand.post("suppose", {"changes": [{"close": arc}], "queries": [path.replace("table", "route").partition("?")[0]]})
        equal((none.status, none.json["code"]), (400, "NoRoute"))

    def errors(self) -> None:
        for path, code, status in ERRORS:
            answer = self.stand.get(path)
            equal(answer.status, status, path[:80])
            if code is not None:
                equal((answer.json["code"], set(answer.json)), (code, {"code", "message"}), path[:80])
        for method, path in (("POST", "version"), ("GET", "changes"), ("DELETE", "nearest/v1/driving/13.4,52.5"), ("PUT", "changes"), ("OPTIONS", "version"), ("BREW", "version")):
            true(self.stand.ask(method, path).status in (400, 405), f"{method} {path}")
        equal(self.stand.ask("HEAD", "version").status, 200)
        # Which of them it is depends on the version of aiohttp.
        for path in ("page/../gateway.py", "page/%2e%2e/gateway.py", "page/..%2fgateway.py"):
            true(self.stand.get(path).status in (400, 403, 404), path)

    def isochrones(self) -> None:
        for end in ("from", "to"):
            answer = self.stand.get(f"isochrone?{end}=13.41,52.505&within=60")
            [feature] = answer.json["features"]
            reached = self.network.reached(end, self.network.nearest((13.41, 52.505))[0], 60)
            equal(feature["properties"]["nodes"], len(reached))
            polygons = feature["geometry"]["coordinates"]
            true(all(ring[0] == ring[-1] and len(ring) > 4 for polygon in polygons for ring in polygon), "a ring is not closed")
            equal([node for node in reached if not inside(polygons, *self.network.places[node])], [], "reached, and outside")
            # No road of the town is longer than 250 m: what is far from all that is reached is outside.
            far = [node for node, place in self.network.places.items() if min(self.network.metres(place, self.network.places[other]) for other in reached) > 250]
            true(len(far) > 30, "nothing is far")
            equal([node for node in far if inside(polygons, *self.network.places[node])], [], "far, and inside")
        [feature] = self.stand.get("isochrone?from=13.41,52.505&within=0").json["features"]
        equal(feature["properties"]["nodes"], 1)

    def tokens(self) -> None:
        for token in (None, "", "no", TOKEN + "x", TOKEN.upper()):
            answer = self.stand.post("changes", {"changes": [{"close": 1}]}, token)
            equal((answer.status, answer.json["code"]), (401, "Unauthorized"), str(token))
        equal(self.stand.get("version").json["accepted"], 0)

    def bodies(self) -> None:
        for body in BODIES:
            for path in ("changes", "suppose"):
                answer = self.stand.ask("POST", path, body, {"Authorization": f"Bearer {TOKEN}"})
                equal((answer.status, answer.json["code"]), (400, "InvalidBody"), f"{path} {body[:60]}")
        for queries in ([], "x", [7], ["nowhere"], ["table/v1/car/1,2;3"], [TABLE] * 17):
            equal(self.stand.post("suppose", {"changes": [{"close": 1}], "queries": queries}).status, 400, str(queries)[:60])
        equal(self.stand.get("version").json["accepted"], 0)

    def suppositions(self) -> None:
        """What is supposed is what it is once it is done, and nothing is kept."""
        tail, head, length = self.network.arcs[0]
        ends = f"{','.join(map(str, self.network.places[tail]))};{','.join(map(str, self.network.places[head]))}"
        path, way = f"table/v1/x/{ends}", f"route/v1/x/{ends}?annotations=true"
        before = self.stand.get(path).json
        supposed = self.stand.post("suppose", {"changes": [{"close": 1}, {"set": 2, "length": 77}], "queries": [path, way, "isochrone?from=13.41,52.505&within=60", NEAREST]}, None)
        equal((supposed.status, supposed.version), (200, 0))
        equal(self.stand.get(path).json, before)
        true(before["durations"] != supposed.json["answers"][0]["durations"], "closing arc 1 changed nothing")
        done = self.stand.change({"close": 1}, {"set": 2, "length": 77})
        after = [self.stand.get(f"{each}{'&' if '?' in each else '?'}version={done.version}").json for each in (path, way, "isochrone?from=13.41,52.505&within=60", NEAREST)]
        answers = supposed.json["answers"]
        equal(answers[:1] + answers[2:], after[:1] + after[2:])
        # Of ways that are equally long either may be told.
        equal(answers[1]["routes"][0]["duration"], after[1]["routes"][0]["duration"])
        again = self.stand.change({"reopen": 1}, {"set": 2, "length": self.network.arcs[1][2]}).version
        equal(self.stand.post(f"suppose?version={again}", {"changes": [{"reopen": 1}], "queries": [path]}).json["refusal"], 23)

    def changes(self) -> None:
        first = self.stand.change({"close": 9}, {"reopen": 9}).version
        done = self.stand.change({"close": 3})
        equal((done.status, done.json, done.version), (200, {"code": "Ok", "version": first + 1}, first + 1))
        seen = self.shown(first + 1)
        true(seen.version >= first + 1, "the version was not waited for")
        for changes, code, name in (([{"close": 3}], 22, "AlreadyClosed"), ([{"close": 4}, {"close": 4}], 22, "AlreadyClosed"), ([{"reopen": 4}], 23, "AlreadyOpen"),
                                    ([{"set": 999_999, "length": 1}], 20, "NoSuchArc"), ([{"set": 1, "length": 2 ** 31}], 21, "LengthRange"), ([{"mark": 999_999}], 24, "NoSuchNode"),
                                    ([{"lay": [1, 2], "length": 5}], 29, "NoRoom")):
            answer = self.stand.change(*changes)
            equal((answer.status, answer.json["code"], answer.json["refusal"], answer.json["name"]), (409, "Refused", code, name), str(changes))
        marks = {int(line.split()[1]) for line in (self.stand.network / "landmarks.ss").read_text().splitlines()[1:]}
        free = next(node for node in self.network.places if node not in marks)
        equal(self.stand.change({"reopen": 3}, {"mark": free}, {"unmark": free}).json["version"], first + 2)

    def shown(self, version: int) -> Answer:
        """A table in this version or a later one, asked for until it is shown."""
        while (answer := self.stand.get(f"{TABLE}?version={version}")).status == 503:
            true(answer.json["code"] in ("Unavailable", "TooLate"), f"{answer.json}")
        return answer

    def many(self) -> None:
        """Many change and ask at once: each version is told once, and each answer is right in its version."""
        first, told, wrong = self.stand.change({"close": 9}, {"reopen": 9}).version, [], []
        before = self.stand.get(TABLE).json["durations"]

        def work(number: int) -> None:
            for turn in range(4):
                answer = self.stand.change({"close": 10 + number} if turn % 2 == 0 else {"reopen": 10 + number})
                told.append(answer.json.get("version"))
                seen = self.shown(answer.json["version"])
                wrong.extend([] if seen.version >= answer.json["version"] else [seen])
        threads = [threading.Thread(target=work, args=(number,)) for number in range(8)]
        for thread in threads:
            thread.start()
        for thread in threads:
            thread.join()
        equal(sorted(told), list(range(first + 1, first + 33)))
        equal((wrong, self.shown(first + 32).json["durations"]), ([], before))

    def events(self) -> None:
        """Who listens is told of a change, and of the arcs that are closed then."""
        connection = http.client.HTTPConnection("127.0.0.1", self.stand.port, timeout=20)
        connection.request("GET", "/events")
        stream = connection.getresponse()
        equal(stream.headers["Content-Type"], "text/event-stream")
        states = (json.loads(line[6:]) for line in iter(stream.readline, b"") if line.startswith(b"data: "))
        equal(next(states)["closed"], [])
        version = self.stand.change({"close": 5}, {"close": 7}).json["version"]
        equal(next(state["closed"] for state in states if state["shown"] == version), [5, 7])
        self.stand.change({"reopen": 5}, {"reopen": 7})
        equal(next(state["closed"] for state in states if state["shown"] == version + 1), [])
        connection.close()

    def measures(self) -> None:
        text = self.stand.get("metrics").body.decode()
        for name in ("roadmark_web_requests_total", "roadmark_web_seconds_bucket", "roadmark_web_sessions", "roadmark_web_server_up 1.0", 'roadmark_state{field="shown"}'):
            true(name in text, name)
        true(not re.search(r'address="(?!nearest|table|route|isochrone|changes|suppose|version|healthz|metrics|events|network|arcs|page|leaflet|other)', text), "a name of a client's own")
        self.stand.until(lambda: 'roadmark_web_sessions{pool="queries"} 12.0' in self.stand.get("metrics").body.decode(), "twelve sessions for queries")


def try_gateway(checks: Checks, folder: pathlib.Path, program: pathlib.Path, requests: int) -> None:
    try_outlines(checks)
    made = folder / "town"
    path = town(folder / "served.osm", 20)
    from_osm(path, made, "--landmarks", 3)
    network = Network(made)
    with Stand(folder / "stand", program, made, "--seconds", 90) as stand:
        gateways = Gateways(stand, network)
        for name in ("nearest", "bearings", "table", "polyline", "fallback", "errors", "isochrones", "tokens", "bodies", "suppositions", "changes", "many", "events", "measures"):
            checks.run(f"gateway: {name}", getattr(gateways, name))
        try_routes(checks, stand, network, path)
        try_front(checks, folder, stand, TABLE)
        try_faults(checks, stand, TABLE, requests)
