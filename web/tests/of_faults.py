"""Tests of web/gateway.py under faults: servers that go and come, long queues, slow clients, large bodies, many connections, and nonsense."""
import collections
import concurrent.futures
import http.client
import json
import os
import pathlib
import random
import signal
import socket
import string
import threading
import time

from checks import PATIENCE, WEB, Checks, call, equal, from_osm, true
from stand import TOKEN, Stand
from towns import town

# What the gateway may answer to nonsense.
FINE = {200, 400, 401, 403, 404, 405, 408, 409, 411, 413, 414, 415, 417, 431, 501, 503}
PIECES = ("nearest", "table", "route", "v1", "v2", "driving", "13.4,52.5", "13.4,52.5;13.41,52.51", "polyline(", ")", "_p~iF", "?", "&", "=", ";", ",", "/", "..", "%00", "%2f", "%ff", "%e2%82", "number",
          "sources", "destinations", "annotations", "duration", "version", "99999999999999999999", "-1", "1e308", "nan", "isochrone", "from", "to", "within", "bbox", "arcs", "events?", "network", "version",
          "suppose", "changes", "geometries", "geojson", "overview", "full", "steps", "alternatives", "waypoints", "nodes", "true", "hints", "radiuses", "bearings", "0,20", "all", "unlimited", "\\", "'", "\"", "<script>", "ä", "#", "page", "leaflet", "metrics", "healthz")

# Good requests, that are spoilt.
GOOD = ("/nearest/v1/car/13.4,52.5?number=3&bearings=0,20", "/table/v1/car/13.4,52.5;13.41,52.51;13.42,52.5?sources=0;1&destinations=2&fallback_speed=3&scale_factor=1.5",
        "/route/v1/car/13.4,52.5;13.41,52.51;13.42,52.5?geometries=geojson&annotations=nodes,duration&overview=full&alternatives=2&waypoints=0;2",
        "/route/v1/car/polyline(ofp_Ik_vpAilAyu@te@g`E)?steps=false&continue_straight=default&radiuses=;unlimited;1000&bearings=0,180;;&generate_hints=false",
        "/isochrone?from=13.41,52.505&within=60", "/arcs?bbox=13.4,52.5,13.41,52.51", "/version?version=0")


def tables(stand: Stand, path: str, count: int, workers: int) -> list:
    with concurrent.futures.ThreadPoolExecutor(workers) as callers:
        return list(callers.map(lambda _: stand.get(path), range(count)))


def refuse(name: str, code: int) -> None:
    """One session after the other at a pair of pipes: each group is refused."""
    while True:
        with open(f"{name}.in") as lines, open(f"{name}.out", "w", buffering=1) as answers:
            for line in lines:
                if line in ("state\n", "end\n"):
                    answers.write("state shown 0\n" if line == "state\n" else f"no {code}\n")


class Faults:
    def __init__(self, stand: Stand, table: str, requests: int) -> None:
        self.stand, self.table, self.requests = stand, table, requests
        self.right = stand.get(table).json

    def answers(self) -> None:
        """It goes on as before."""
        self.stand.healthy()
        self.stand.until(lambda: self.stand.get(self.table).status == 200, "a table is answered")
        equal(self.stand.get(self.table).json, self.right)

    def killed(self) -> None:
        """While no server is there it is 503 with Retry-After; what was told is there behind the restart, and nobody has to do anything."""
        version = self.stand.change({"close": 20}).json["version"]
        self.stand.kill_server()
        answer = self.stand.get(self.table)
        equal((answer.status, answer.json["code"]), (503, "Away"))
        true(int(answer.headers["Retry-After"]) > 0, "no Retry-After")
        equal(self.stand.change({"reopen": 20}).status, 503)
        self.stand.until(lambda: self.stand.get("healthz").status == 503, "the gateway tells that no server is there", 10)
        true(self.stand.get("nearest/v1/x/13.4,52.5").status == 200, "nearest needs no server")
        self.stand.start_server()
        self.stand.healthy()
        equal(self.stand.get("version").json["shown"], version)
        equal(self.stand.change({"reopen": 20}).json["version"], version + 1)
        self.stand.get(f"version?version={version + 1}")
        self.answers()

    def killed_under_load(self) -> None:
        """Killed and started again while eight ask: each has a right answer or 503."""
        with concurrent.futures.ThreadPoolExecutor(1) as other:
            asked = other.submit(tables, self.stand, self.table, 150, 8)
            time.sleep(0.3)
            self.stand.kill_server()
            time.sleep(0.3)
            self.stand.start_server()
            answers = asked.result()
        equal({answer.status for answer in answers} - {200, 503}, set())
        equal([answer.json for answer in answers if answer.status == 200 and answer.json["durations"] != self.right["durations"]], [])
        self.answers()

    def stopped(self) -> None:
        """A server that does not answer: 503 for who asks, and 504 for who changes, who is told that it may be done or not."""
        self.again("--seconds", 2)
        answer = self.stand.get("version?version=999999")
        equal((answer.status, answer.json["name"], answer.headers["Retry-After"]), (503, "NotYet", "1"))
        self.stand.kill_server(signal.SIGSTOP)
        with concurrent.futures.ThreadPoolExecutor(2) as callers:
            asked, changed = callers.submit(self.stand.get, self.table), callers.submit(self.stand.change, {"close": 21})
            equal((asked.result().status, asked.result().json["code"]), (503, "TooLate"))
            true((changed.result().status, changed.result().json["code"]) in ((504, "Unknown"), (503, "Away"), (503, "TooLate")), f"{changed.result()}")
        self.stand.kill_server(signal.SIGCONT)
        self.stand.healthy()
        self.stand.until(lambda: self.stand.change({"close": 21}).status in (200, 409), "a change is taken")
        self.stand.until(lambda: self.stand.change({"reopen": 21}).status in (200, 409), "arc 21 is open")
        self.again()
        self.answers()

    def broken_disk(self) -> None:
        """The disk fails: 503 behind 45, as a session tells it, /healthz tells it, queries go on."""
        self.stand.kill_server()
        self.stand.start_server(4096)
        self.stand.healthy()
        for _ in range(2):
            self.stand.until(lambda: self.stand.change({"close": 22}).json["code"] != "Away", "a session for changes is there")
            answer = self.stand.change({"close": 22})
            equal((answer.status, answer.json["refusal"], answer.headers["Retry-After"]), (503, 45, "30"))
        self.stand.until(lambda: self.stand.get("healthz").status == 503, "/healthz tells it", 10)
        true("broken" in self.stand.get("healthz").json["message"], "not told what is broken")
        equal(self.stand.get(self.table).json["durations"], self.right["durations"])
        self.stand.kill_server()
        self.stand.start_server()
        self.stand.healthy()
        # The first change behind the fault may be there or not.
        self.stand.change({"reopen": 22})
        self.answers()

    def refusals(self) -> None:
        """Where nothing is made durable any more it is 503 with Retry-After: behind 43 and 61, as a server tells them that the test plays at two pairs, and behind 64, from pairs that only ask."""
        for code, name in ((43, "Device"), (61, "Closed"), (64, "AsksAlone")):
            folder = self.stand.folder / ("asking" if code == 64 else f"refusing.{code}")
            for pair in () if code == 64 else call(WEB.parent / "examples" / "pairs.sh", folder, 2).stdout.split()[::2]:
                threading.Thread(target=refuse, args=(pair.removesuffix(".in"), code), daemon=True).start()
            self.again("--sessions", 5, "--changing", folder)
            answer = self.stand.change({"close": 22})
            equal((answer.status, answer.json["code"], answer.json["refusal"], answer.json["name"], answer.headers["Retry-After"]), (503, "Unavailable", code, name, "30"))
            equal("or not" in answer.json["message"], code == 43, answer.json["message"])
        self.again()
        self.answers()

    def ended(self) -> None:
        """The server ends in order under eight who change: each has a version, 503 or 504, and what was told is there behind the restart."""
        with concurrent.futures.ThreadPoolExecutor(8) as callers:
            asked = [callers.submit(self.stand.change, {"close": 9}, {"reopen": 9}) for _ in range(200)]
            asked[10].result()
            os.write(self.stand.held, b"quit\n")
            answers = [each.result() for each in asked]
        self.stand.server.wait(PATIENCE)
        self.stand.start_server()
        self.stand.healthy()
        seen = collections.Counter(" ".join(map(str, (answer.status, answer.json["code"], answer.json.get("refusal", "")))).strip() for answer in answers)
        print(f"  of 200 changes: {', '.join(f'{count} had {what}' for what, count in seen.most_common())}")
        equal({what[:3] for what in seen} - {"200", "503", "504"}, set())
        true(self.stand.get("version").json["shown"] >= max(answer.version for answer in answers if answer.status == 200), "a change that was told is not there")
        self.answers()

    def long_queue(self) -> None:
        """One pair and a queue of two: of forty at once some are sent away, with Retry-After, and all others answered."""
        self.again("--sessions", 1, "--queue", 2)
        path = "isochrone?from=13.41,52.505&within=600"
        answers = tables(self.stand, path, 80, 40)
        counts = {status: sum(answer.status == status for answer in answers) for status in (200, 503)}
        equal(sum(counts.values()), len(answers))
        true(counts[200] > 0 and counts[503] > 0, f"{counts}")
        true(all(answer.json["code"] == "Busy" and int(answer.headers["Retry-After"]) >= 1 for answer in answers if answer.status == 503), "no Retry-After")
        self.again()
        self.answers()

    def again(self, *options: object, network: pathlib.Path | None = None) -> None:
        """Another gateway in the place of this one."""
        self.stand.gateway.terminate()
        equal(self.stand.gateway.wait(30), 0, "status at SIGTERM")
        self.stand.start_gateway(*options, network=network)

    def other_map(self) -> None:
        """A gateway whose map is not that of the store answers nothing."""
        other = self.stand.folder / "other"
        from_osm(town(self.stand.folder / "other.osm", 6), other, "--landmarks", 1)
        self.again(network=other)
        self.stand.until(lambda: "another map" in self.stand.get("healthz").json["message"], "/healthz tells it")
        for answer in (self.stand.get(self.table), self.stand.change({"close": 1}), self.stand.post("suppose", {"changes": [{"close": 1}], "queries": [self.table]})):
            equal((answer.status, answer.json["code"]), (503, "Away"))
        self.again()
        self.answers()

    def raw(self, data: bytes, seconds: float = 20) -> bytes:
        """What comes back until the other side closes, or for so long."""
        with socket.create_connection(("127.0.0.1", self.stand.port), seconds) as line:
            try:
                line.sendall(data)
                return line.recv(65_536)
            except OSError:
                return b""

    def large(self) -> None:
        """Bodies of 100 MB, with and without their length told, and heads of 1 MB."""
        head = f"POST /changes HTTP/1.1\r\nHost: x\r\nAuthorization: Bearer {TOKEN}\r\n".encode()
        part = b"x" * 1_000_000
        for more, chunk in ((b"Content-Length: 100000000\r\n\r\n", part), (b"Transfer-Encoding: chunked\r\n\r\n", b"F4240\r\n" + part + b"\r\n")):
            with socket.create_connection(("127.0.0.1", self.stand.port), 20) as line:
                try:
                    line.sendall(head + more)
                    for _ in range(100):
                        line.sendall(chunk)
                    answer = line.recv(1000)
                except OSError:
                    answer = b"HTTP/1.1 413 closed"
                true(b" 413 " in answer, f"{answer[:100]}")
        for path in ("/" + "x" * 1_000_000, "/version?" + "x" * 1_000_000):
            true(self.raw(f"GET {path} HTTP/1.1\r\nHost: x\r\n\r\n".encode())[9:12] in (b"400", b"414", b""), "a long address")
        true(self.raw(b"GET / HTTP/1.1\r\nX: " + part + b"\r\n\r\n")[9:12] in (b"400", b"431", b""), "a long header")
        self.answers()

    def slow(self) -> None:
        """Who sends half a head, or half a body, or reads nothing, is let go, and holds up nobody."""
        halves = (b"GET /vers", b"POST /changes HTTP/1.1\r\nHost: x\r\nAuthorization: Bearer " + TOKEN.encode() + b"\r\nContent-Length: 50\r\n\r\n{", b"")
        lines = [socket.create_connection(("127.0.0.1", self.stand.port), 90) for _ in range(20) for _ in halves]
        for number, line in enumerate(lines):
            line.sendall(halves[number % len(halves)])
        unread = [socket.create_connection(("127.0.0.1", self.stand.port), 90) for _ in range(20)]
        for line in unread:
            line.sendall(b"GET /arcs?bbox=-180,-90,180,90 HTTP/1.1\r\nHost: x\r\n\r\n" * 20)
        self.answers()
        began = time.monotonic()
        for number, line in enumerate(lines):
            answer = b""
            try:
                answer = line.recv(1000)
            except ConnectionError:
                pass
            true(answer == b"" or b" 408 " in answer, f"{halves[number % len(halves)]}: {answer[:80]}")
            line.close()
        true(time.monotonic() - began < 60, "they were let stay")
        for line in unread:
            line.close()
        self.answers()

    def connections(self) -> None:
        """A thousand connections at once, each with a request."""
        lines = [socket.create_connection(("127.0.0.1", self.stand.port), 600) for _ in range(1000)]
        for line in lines:
            line.sendall(f"GET /{self.table} HTTP/1.1\r\nHost: x\r\n\r\n".encode())
        statuses: dict[bytes, int] = {}
        for line in lines:
            answer = line.recv(65_536)
            statuses[answer[9:12]] = statuses.get(answer[9:12], 0) + 1
            line.close()
        print(f"  of 1,000 connections at once: {', '.join(f'{count} had {status.decode()}' for status, count in sorted(statuses.items()))}")
        true(set(statuses) <= {b"200", b"503"} and statuses[b"200"] > 100, f"{statuses}")
        self.answers()

    def nonsense(self) -> None:
        """Requests by dice: each has OSRM's error, another 4xx, or an answer; none harms, and each change that was taken is there."""
        dice, taken = random.Random(91), 0
        before = self.stand.change({"close": 9}, {"reopen": 9}).version
        counts: dict[int, int] = {}
        connection = http.client.HTTPConnection("127.0.0.1", self.stand.port, timeout=180)
        for number in range(self.requests):
            if number % 10 == 9:
                self.raw_nonsense(dice)
                continue
            status, kind, body, path = self.thrown(dice, connection)
            counts[status] = counts.get(status, 0) + 1
            true(status in FINE, f"{status} for {path!r}: {body[:200]!r}")
            taken += path == "/changes" and status == 200
            if 400 <= status < 500 and body:
                # What is no HTTP, or has a strange Expect, is answered by aiohttp alone.
                true(kind == "application/json; charset=utf-8" and "code" in json.loads(body) or status in (400, 417), f"{status} for {path!r}: {kind}, {body[:100]!r}")
        connection.close()
        print(f"  {self.requests} requests: {', '.join(f'{count} had {status}' for status, count in sorted(counts.items()))}")
        self.stand.healthy()
        equal(self.stand.change({"close": 9}, {"reopen": 9}).version, before + taken + 1)
        true("Traceback" not in self.stand.errors(), self.stand.errors()[-500:])

    def thrown(self, dice: random.Random, connection: http.client.HTTPConnection) -> tuple[int, str, bytes, str]:
        """One request, over a connection that is kept as long as it is not closed."""
        path = self.address(dice)
        method, body, headers = dice.choice(("GET",) * 8 + ("HEAD", "POST", "PUT", "DELETE", "FOO")), None, {}
        if dice.random() < 0.3:
            method, path = "POST", dice.choice(("/changes", "/suppose"))
            body = self.body(dice)
            headers = dice.choice(({}, {"Authorization": f"Bearer {TOKEN}"}, {"Authorization": "Bearer " + "x" * dice.randrange(99)}, {"Content-Type": "text/\x7f"}, {"Expect": "x"}))
        connection.putrequest(method, path.encode("utf-8").decode("latin-1").replace(" ", "+") if path.isascii() else path.encode("ascii", "ignore").decode(), skip_accept_encoding=True)
        for name, value in headers.items():
            connection.putheader(name, value)
        if body is not None:
            connection.putheader("Content-Length", str(len(body)))
        connection.endheaders(body)
        if path.startswith("/events"):
            connection.close()
            return 200, "", b"", path
        response = connection.getresponse()
        return response.status, response.headers.get("Content-Type", ""), response.read(), path

    def address(self, dice: random.Random) -> str:
        """Pieces in any order, or a good address of which a few characters are others or gone, or pieces stand in the place of others."""
        if dice.random() < 0.5:
            return "/" + "".join(dice.choice(PIECES) + dice.choice(("", "/", "/", "=", ";", "?", "&")) for _ in range(dice.randrange(1, 9)))
        path = dice.choice(GOOD)
        for _ in range(dice.randrange(3)):
            cut = dice.randrange(1, len(path))
            path = path[:cut] + dice.choice(("", "", dice.choice(string.digits + ";,=&.-"), dice.choice(PIECES))) + path[cut + dice.randrange(3):]
        return path

    def body(self, dice: random.Random) -> bytes:
        good = json.dumps({"changes": [{dice.choice(("close", "reopen", "set", "mark", "lay", "x")): dice.choice((1, 0, -1, 10 ** 30, "1", None, [1, 2], 1.5)), **dice.choice(({}, {"length": 3}))}],
                           **dice.choice(({}, {"queries": dice.choice(([], ["version"], [self.table], 7))}))}).encode()
        kind = dice.randrange(4)
        if kind == 0:
            return good
        if kind == 1:
            return dice.randbytes(dice.randrange(200))
        cut = dice.randrange(len(good))
        return good[:cut] + (bytes([dice.randrange(256)]) if kind == 2 else b"") + good[cut + 1:]

    def raw_nonsense(self, dice: random.Random) -> None:
        """Bytes that are no HTTP, or nearly some."""
        good = b"GET /version HTTP/1.1\r\nHost: x\r\nContent-Length: 0\r\nConnection: close\r\n\r\n"
        data = dice.choice((dice.randbytes(dice.randrange(1, 300)) + b"\r\n\r\n", good.replace(b"1.1", dice.choice((b"9.9", b"1.0", b"2"))), good.replace(b"0", b"-5"), good.replace(b"\r\n", b"\n"),
                            b"".join(bytes([byte ^ (dice.random() < 0.02) << dice.randrange(8)]) for byte in good), "".join(dice.choices(string.printable, k=80)).encode() + b"\r\n\r\n"))
        with socket.create_connection(("127.0.0.1", self.stand.port), 20) as line:
            try:
                line.sendall(data)
                line.shutdown(socket.SHUT_WR)
                line.settimeout(5)
                line.recv(1000)
            except OSError:
                pass


def try_faults(checks: Checks, stand: Stand, table: str, requests: int) -> None:
    faults = Faults(stand, table, requests)
    for name in ("killed", "killed_under_load", "stopped", "broken_disk", "refusals", "ended", "long_queue", "other_map", "large", "slow", "connections", "nonsense"):
        checks.run(f"gateway: {name}", getattr(faults, name))
