"""How the server stands, looked at again and again, and told to those who listen: the version that is shown, and the arcs that are closed in it."""
import asyncio
import json
import sys
import time
from typing import Any

from maps import Map
from pools import Away, Busy, Cut, Pools, TooLate, Turn
from roadmark import Fault, Refused

EACH, AWAY = 0.25, 0.5
# A page has so many closed arcs listed at most.
MOST_CLOSED = 100_000
STALE = 5.0
# So many arcs of a server that was found are held against the map.
SAMPLES = 16


class OtherMap(Exception):
    """The store at the pipes is none of this map."""


class Watch:
    """The last state of the server, and the moment when it was seen."""

    def __init__(self, pools: Pools, places: Map) -> None:
        self.pools, self.places = pools, places
        self.state: dict[str, str] = {}
        self.closed: list[int] = []
        self.seen, self.why, self.other, self.noted = -STALE, "no server was seen yet", False, ""
        self.changed, self.looked = asyncio.Condition(), asyncio.Event()
        # What listeners get, and the server whose arcs were held against the map.
        self.text, self.fits_at = json.dumps(self.told()), -1

    @property
    def connected(self) -> bool:
        return time.monotonic() - self.seen < STALE and not self.why

    def number(self, key: str) -> int | None:
        text = self.state.get(key, "")
        return int(text) if text.isdigit() else None

    @property
    def shown(self) -> int | None:
        return self.number("shown") if self.state else None

    def fitting(self) -> None:
        """Nothing is asked of a store of another map, or before the first one was looked at."""
        if self.other or self.fits_at < 0:
            raise self.away()

    def away(self) -> Away:
        return Away("", self.why)

    def told(self) -> dict[str, Any]:
        """What a listener gets."""
        return {"connected": self.connected, "why": self.why, "shown": self.shown, "durable": self.number("durable"), "accepted": self.number("accepted"),
                "behind": (self.number("durable") or 0) - (self.shown or 0), "pairs": self.pools.queries.connected + self.pools.changes.connected, "closed": self.closed}

    async def run(self) -> None:
        """Looks for ever; a server that went is looked for again."""
        while True:
            try:
                await self.look()
                self.why, self.other, self.noted = "", False, ""
                self.pools.is_up.set()
            except (Away, Busy, Cut, TooLate, OtherMap, Fault) as fault:
                self.note(fault)
                self.pools.is_up.clear()
                self.why, self.other = str(fault) or "no answer in time", isinstance(fault, OtherMap)
            self.looked.set()
            now = json.dumps(self.told())
            if now != self.text:
                async with self.changed:
                    self.text = now
                    self.changed.notify_all()
            await asyncio.sleep(AWAY if self.why else EACH)

    def note(self, fault: Exception) -> None:
        """Tells who runs the gateway why the server does not answer, once for each kind of fault until it does."""
        if type(fault).__name__ != self.noted:
            self.noted = type(fault).__name__
            print(f"gateway: no answer from the server: {getattr(fault, 'detail', '') or fault or 'none in time'}", file=sys.stderr, flush=True)

    async def look(self) -> None:
        [worker] = self.pools.watch.workers

        def look(turn: Turn) -> tuple[dict[str, str], list[int] | None]:
            if self.fits_at != worker.leases:
                self.fits(turn)
                self.fits_at = worker.leases
            state = turn.session.state(seconds=turn.left)
            fresh = state.get("shown") != self.state.get("shown")
            return state, turn.session.closed(seconds=turn.left)[1][:MOST_CLOSED] if fresh else None
        self.state, closed = await self.pools.watch.ask(look, STALE)
        self.closed = self.closed if closed is None else closed
        self.seen = time.monotonic()

    def fits(self, turn: Turn) -> None:
        """Sees that some arcs of the store lead from where to where those of the map do."""
        count = len(self.places.tails)
        for arc in sorted({1 + number * (count - 1) // (SAMPLES - 1) for number in range(SAMPLES)}) if count else []:
            try:
                stored = turn.session.arc(arc, seconds=turn.left)[1]
            except Refused:
                raise OtherMap(f"the store at the pipes is of another map: it has no arc {arc}") from None
            if (stored.tail, stored.head) != (self.places.tails[arc - 1], self.places.heads[arc - 1]):
                raise OtherMap(f"the store at the pipes is of another map: its arc {arc} leads from {stored.tail} to {stored.head}")

    async def until(self, version: int, seconds: float) -> bool:
        """Whether the version is shown within so many seconds."""
        try:
            async with self.changed:
                await asyncio.wait_for(self.changed.wait_for(lambda: self.shown is not None and self.shown >= version), seconds)
        except asyncio.TimeoutError:
            return False
        return True
