#!/usr/bin/python3 -B
"""Serves a roadmark store over HTTP, by the pairs of named pipes of one `roadmark serve`: OSRM's `nearest`, `table` and `route`, isochrones, changes, suppositions, and a page.

    web/gateway.py FOLDER ASKING [--changing PAIRS --token FILE] [--port 5000] [--sessions 12] [--tiles URL]

FOLDER was made by web/from_osm.py, ASKING is the folder of the server's pairs of pipes that only ask, and PAIRS that of pairs that may change. docs/WEB.md tells all addresses.
"""
import argparse
import asyncio
import hmac
import json
import logging
import pathlib
import re
import sys
import time
import traceback
from collections.abc import AsyncIterator, Awaitable, Callable
from typing import Any

WEB = pathlib.Path(__file__).resolve().parent
sys.path[:0] = [str(WEB), *(str(path) for path in (WEB.parent / "client", WEB.parent) if (path / "roadmark.py").exists())]

from aiohttp import web
from aiohttp.http_exceptions import HttpProcessingError

import measures
from changing import Change, Supposition
from connections import Connections
from globe import NoMap
from maps import Map
from osrm import Question, Reply, Wrong, question_of
from pools import Away, Busy, Cut, Pools, TooLate
from reaching import Isochrone
from roadmark import Fault, Refused
from watching import Watch

# A body is no longer, and is here within so many seconds.
MOST_BODY, BODY_SECONDS = 65_536, 10
# The longest address, and the longest header.
LONGEST = 32_768
MOST_ARCS, MOST_LISTENERS, HEARTBEAT = 20_000, 1_000, 15
# The server's codes behind which nothing was done and trying again helps, at once or once somebody saw to it; others are the client's own.
SOON, LATER = {11, 50, 54, 60}, {43, 45, 61, 62, 63, 64}
UNSURE = {43, 45}
VERSION = "X-Roadmark-Version"
LEAFLET = pathlib.Path("/usr/share/javascript/leaflet")
SAFE = {"X-Content-Type-Options": "nosniff", "Referrer-Policy": "same-origin"}
READABLE = {"Access-Control-Allow-Origin": "*", "Access-Control-Expose-Headers": VERSION}

Handler = Callable[[web.Request], Awaitable[web.StreamResponse]]


def told(body: dict[str, Any], status: int = 200, version: int | None = None, again: int | None = None) -> web.Response:
    headers = dict(READABLE)
    if version is not None:
        headers[VERSION] = str(version)
    if again is not None:
        headers["Retry-After"] = str(again)
    return web.Response(text=json.dumps(body, ensure_ascii=False, allow_nan=False), status=status, content_type="application/json", headers=headers)


def fault_of(fault: Exception) -> tuple[int, dict[str, Any], int | None]:
    """The status, the body and the seconds after which to try again."""
    match fault:
        case Wrong():
            return fault.status, {"code": fault.code, "message": fault.message}, None
        case Refused() if fault.code in SOON | LATER:
            message = f"{fault}{': the change may be there behind a restart, or not' if fault.code in UNSURE else ''}"
            return 503, {"code": "Unavailable", "refusal": fault.code, "name": fault.name, "message": message}, 1 if fault.code in SOON else 30
        case Refused():
            return 409, {"code": "Refused", "refusal": fault.code, "name": fault.name, "message": str(fault)}, None
        case Busy():
            return 503, {"code": "Busy", "message": str(fault)}, fault.seconds
        case TooLate():
            return 503, {"code": "TooLate", "message": "no answer in time"}, 2
        case Away():
            return 503, {"code": "Away", "message": str(fault)}, 2
        case Cut():
            return 504, {"code": "Unknown", "message": f"the change may be durable or not: look before it is told again ({fault})"}, None
    raise fault


class Gateway:
    """All handlers, over one map and one server."""

    def __init__(self, places: Map, pools: Pools, token: str | None, seconds: float, tiles: str) -> None:
        self.places, self.pools, self.token, self.seconds, self.tiles = places, pools, token, seconds, tiles
        self.watch = Watch(pools, places)
        self.listeners = 0
        # What is supposed has a copy of the network each, so no more than half of the sessions do so at once.
        self.suppositions = asyncio.Semaphore(max(1, len(pools.queries.workers) // 2))

    def app(self) -> web.Application:
        app = web.Application(client_max_size=MOST_BODY, middlewares=[self.around])
        app.add_routes([
            web.get("/isochrone", self.isochrone), web.get("/version", self.version), web.get("/healthz", self.health), web.get("/metrics", self.metrics),
            web.get("/events", self.events), web.get("/network", self.network), web.get("/arcs", self.arcs), web.get("/", self.index),
            web.post("/changes", self.changes), web.post("/suppose", self.suppose),
            web.static("/page", WEB / "page"), *([web.static("/leaflet", LEAFLET)] if LEAFLET.exists() else []), web.get("/{address:.*}", self.osrm),
        ])
        app.cleanup_ctx.append(self.life)
        return app

    async def life(self, app: web.Application) -> AsyncIterator[None]:
        self.pools.start()
        task = asyncio.create_task(self.watch.run())
        yield
        task.cancel()
        self.pools.stop()

    # Around each request.

    @web.middleware
    async def around(self, request: web.Request, handler: Handler) -> web.StreamResponse:
        began = time.monotonic()
        try:
            response = await handler(request)
        except web.HTTPException as fault:
            response = told({"code": re.sub(r"\W", "", fault.reason), "message": fault.reason}, fault.status)
            response.headers.update({name: value for name, value in fault.headers.items() if name in ("Allow", "Location")})
        except (Wrong, Fault, Busy, TooLate, Away, Cut) as fault:
            status, body, again = fault_of(fault)
            response = told(body, status, getattr(fault, "version", None) or self.watch.shown, again)
        if not response.prepared:
            response.headers.update(SAFE)
        measures.seen(request.path, response.status, time.monotonic() - began)
        return response

    async def wanted(self, request: web.Request) -> tuple[int | None, str]:
        """The version that the address wants, once it is shown, and the other options."""
        parts = request.rel_url.raw_query_string.split("&") if request.rel_url.raw_query_string else []
        versions = [part[8:] for part in parts if part.startswith("version=")]
        if not versions:
            return None, "&".join(parts)
        if not re.fullmatch(r"\d{1,15}", versions[-1]):
            raise Wrong("InvalidValue", "version is no number")
        if not await self.watch.until(int(versions[-1]), self.seconds):
            raise Refused(54, f"until {versions[-1]}")
        return int(versions[-1]), "&".join(part for part in parts if not part.startswith("version="))

    async def ask(self, question: Question, version: int | None = None) -> Reply:
        if not question.needs_session:
            return Reply(self.watch.shown, question.answer(None).body)
        self.watch.fitting()
        while True:
            reply = await self.pools.queries.ask(question.answer, self.seconds)
            if version is None or reply.version >= version:
                return reply

    async def body(self, request: web.Request) -> bytes:
        try:
            return await asyncio.wait_for(request.read(), BODY_SECONDS)
        except asyncio.TimeoutError:
            raise web.HTTPRequestTimeout() from None

    # Queries.

    async def osrm(self, request: web.Request) -> web.Response:
        version, query = await self.wanted(request)
        reply = await self.ask(question_of(self.places, request.rel_url.raw_path, query), version)
        return told(reply.body, version=reply.version)

    async def isochrone(self, request: web.Request) -> web.Response:
        version, query = await self.wanted(request)
        reply = await self.ask(Isochrone(self.places, query), version)
        return told(reply.body, version=reply.version)

    async def suppose(self, request: web.Request) -> web.Response:
        version, _ = await self.wanted(request)
        supposition = Supposition(self.places, await self.body(request))
        self.watch.fitting()
        if self.suppositions.locked():
            raise Busy(1)
        async with self.suppositions:
            reply = await self.pools.queries.ask(supposition.answer, self.seconds)
        return told(reply.body, version=reply.version)

    async def version(self, request: web.Request) -> web.Response:
        await self.wanted(request)
        if self.watch.shown is None or not self.watch.connected:
            raise self.watch.away()
        state = {key: self.watch.number(key) for key in ("shown", "durable", "accepted")}
        return told({"code": "Ok", **state}, version=self.watch.shown)

    # Changes.

    def may_change(self, request: web.Request) -> None:
        if self.token is None:
            raise Wrong("Forbidden", "this gateway was started without --changing and --token, so it changes nothing", 403)
        given = request.headers.get("Authorization", "")
        if not hmac.compare_digest(given.encode("utf-8", "surrogateescape"), f"Bearer {self.token}".encode()):
            raise Wrong("Unauthorized", "changes need the header Authorization: Bearer TOKEN", 401)

    async def changes(self, request: web.Request) -> web.Response:
        self.may_change(request)
        change = Change(await self.body(request))
        self.watch.fitting()
        reply = await self.pools.changes.ask(change.answer, self.seconds, only_asks=False)
        return told(reply.body, version=reply.version)

    # The page, and what it reads.

    async def index(self, request: web.Request) -> web.StreamResponse:
        return web.FileResponse(WEB / "page" / "index.html")

    async def network(self, request: web.Request) -> web.Response:
        places = self.places
        return told({"code": "Ok", "profile": places.profile, "by": places.by, "nodes": len(places.lons), "arcs": len(places.tails), "bounds": places.bounds, "tiles": self.tiles,
                     "changes": self.token is not None}, version=self.watch.shown)

    async def arcs(self, request: web.Request) -> web.Response:
        """The arcs in a box, as GeoJSON, and none where they are too many."""
        matched = re.fullmatch(r"bbox=(-?\d+\.?\d*),(-?\d+\.?\d*),(-?\d+\.?\d*),(-?\d+\.?\d*)", request.rel_url.raw_query_string[:200])
        if not matched:
            raise Wrong("InvalidOptions", "Asked is for bbox=WEST,SOUTH,EAST,NORTH")
        numbers = self.places.within(*(float(number) for number in matched.groups()))
        features = await asyncio.get_running_loop().run_in_executor(None, lambda: [self.feature(arc) for arc in numbers]) if len(numbers) <= MOST_ARCS else []
        return told({"type": "FeatureCollection", "code": "Ok", "count": len(numbers), "features": features}, version=self.watch.shown)

    def feature(self, arc: int) -> dict[str, Any]:
        way, length, _, name = self.places.row(arc)
        ends = {"from": int(self.places.tails[arc - 1]), "to": int(self.places.heads[arc - 1])}
        return {"type": "Feature", "id": arc, "properties": {**ends, "way": way, "metres": length, "name": name}, "geometry": {"type": "LineString", "coordinates": self.places.line(arc)}}

    async def events(self, request: web.Request) -> web.StreamResponse:
        """Server-sent events: how the server stands, each time it has changed."""
        if self.listeners >= MOST_LISTENERS:
            raise Busy(30)
        response = web.StreamResponse(headers={"Content-Type": "text/event-stream", "Cache-Control": "no-store", "X-Accel-Buffering": "no", **SAFE})
        self.listeners += 1
        try:
            await response.prepare(request)
            last = ""
            while True:
                now = self.watch.text
                await response.write(f"event: state\ndata: {now}\n\n".encode() if now != last else b": still here\n\n")
                last = now
                await self.news(now)
        except (ConnectionError, asyncio.CancelledError):
            return response
        finally:
            self.listeners -= 1

    async def news(self, last: str) -> None:
        """Waits until there is something else to tell, or it is time to show that one is there."""
        try:
            async with self.watch.changed:
                await asyncio.wait_for(self.watch.changed.wait_for(lambda: self.watch.text != last), HEARTBEAT)
        except asyncio.TimeoutError:
            pass

    # For operators.

    async def health(self, request: web.Request) -> web.Response:
        state = self.watch.state
        if not self.watch.connected:
            raise self.watch.away()
        ended = [name for name in ("flusher", "builder") if state.get(name) != "on"]
        if ended:
            return told({"code": "Unavailable", "message": f"the server's {' and '.join(ended)}: {', '.join(state.get(name, '') for name in ended)}"}, 503, self.watch.shown, 30)
        return told({"code": "Ok", "state": state}, version=self.watch.shown)

    async def metrics(self, request: web.Request) -> web.Response:
        return web.Response(body=measures.told(self.pools, self.watch, self.listeners), headers={"Content-Type": measures.KIND})


def words() -> argparse.Namespace:
    parser = argparse.ArgumentParser(prog="gateway.py", description="Serves a roadmark store over HTTP.")
    parser.add_argument("folder", metavar="FOLDER", type=pathlib.Path, help="what from_osm.py made")
    parser.add_argument("asking", metavar="ASKING", type=pathlib.Path, help="the folder with the pairs of pipes behind --asking of `roadmark serve`")
    parser.add_argument("--host", default="127.0.0.1", help="the address at which it listens (127.0.0.1)")
    parser.add_argument("--port", type=int, default=5000, help="the port (5000)")
    parser.add_argument("--changing", metavar="PAIRS", type=pathlib.Path, help="the folder with pairs of pipes that may change, of which two are taken; without it nobody changes the network")
    parser.add_argument("--token", metavar="FILE", type=pathlib.Path, help="the file with the token of those who may change the network; it goes with --changing")
    parser.add_argument("--sessions", type=int, default=12, help="pairs of pipes for queries (12); one more is for looking at the server")
    parser.add_argument("--seconds", type=float, default=10, help="the time that an answer may take (10)")
    parser.add_argument("--queue", type=int, default=32, help="how many may wait for a pair of pipes, until others are sent away (32)")
    parser.add_argument("--connections", type=int, default=4000, help="how many connections at once (4000)")
    parser.add_argument("--tiles", default="", help="a tile server for the page, as https://tile.example.org/{z}/{x}/{y}.png")
    given = parser.parse_args()
    if (given.changing is None) != (given.token is None):
        parser.error("--changing and --token go together")
    if not (1 <= given.sessions <= 57 and 0.1 <= given.seconds <= 3600 and 1 <= given.queue <= 10_000 and 0 <= given.port <= 65_535 and 1 <= given.connections):
        parser.error("--sessions is 1 to 57, --seconds 0.1 to 3600, --queue 1 to 10000, --port 0 to 65535, --connections at least 1")
    return given


def token_of(path: pathlib.Path | None) -> str | None:
    if path is None:
        return None
    token = path.read_text(encoding="ascii").strip()
    if not re.fullmatch(r"[!-~]{16,256}", token):
        raise NoMap(f"{path}: a token is 16 to 256 letters, digits and signs on one line")
    return token


async def serve(given: argparse.Namespace) -> None:
    gateway = Gateway(Map(given.folder), Pools(given.asking, given.changing, given.sessions, given.queue), token_of(given.token), given.seconds, given.tiles)
    runner = web.AppRunner(gateway.app(), access_log=None, handle_signals=True, keepalive_timeout=30, max_line_size=LONGEST, max_field_size=LONGEST)
    await runner.setup()
    connections = Connections(runner.server, given.connections)
    server = await asyncio.get_running_loop().create_server(connections.door, given.host, given.port, reuse_address=True, backlog=1024)
    await gateway.watch.looked.wait()
    print(f"gateway: http://{given.host}:{server.sockets[0].getsockname()[1]}/", flush=True)
    try:
        await asyncio.Event().wait()
    finally:
        server.close()
        await runner.server.shutdown(2)
        await runner.cleanup()


def is_fault(record: logging.LogRecord) -> bool:
    """Whether an error is the gateway's own, and no client's who sends what is no HTTP, or is gone before aiohttp has his request (it then fails in its own file)."""
    if not record.exc_info or record.exc_info[2] is None:
        return True
    *_, (frame, _) = traceback.walk_tb(record.exc_info[2])
    return not isinstance(record.exc_info[1], (HttpProcessingError, ConnectionError)) and not frame.f_code.co_filename.endswith("aiohttp/web_protocol.py")


def main() -> int:
    given = words()
    logging.getLogger("aiohttp.server").addFilter(is_fault)
    try:
        asyncio.run(serve(given))
    except (NoMap, OSError, UnicodeDecodeError) as fault:
        print(f"gateway: {fault}", file=sys.stderr)
        return 1
    except (web.GracefulExit, KeyboardInterrupt):
        pass
    return 0


if __name__ == "__main__":
    sys.exit(main())
