"""The connections of the gateway: no more than so many, and none that stays without asking."""
import asyncio
from collections.abc import Callable

from aiohttp import web

# The head of a connection's first request is here in so many seconds; behind it aiohttp sees to idle connections, and the gateway to bodies.
HEAD_SECONDS = 15
HEAD_END = b"\r\n\r\n"


class Connections:
    """Makes a protocol for each connection that comes."""

    def __init__(self, make: Callable[[], web.RequestHandler], most: int) -> None:
        self.make, self.most, self.count = make, most, 0

    def door(self) -> asyncio.Protocol:
        return Door(self)


class Door(asyncio.Protocol):
    """Hands all on to aiohttp's protocol, and ends a connection that is one too many, or whose first head does not come in time."""

    def __init__(self, connections: Connections) -> None:
        self.connections, self.inner = connections, connections.make()
        self.timer: asyncio.TimerHandle | None = None
        self.tail = b""

    def connection_made(self, transport: asyncio.BaseTransport) -> None:
        self.connections.count += 1
        self.inner.connection_made(transport)
        assert isinstance(transport, asyncio.Transport)
        if self.connections.count > self.connections.most:
            transport.abort()
        else:
            self.timer = asyncio.get_running_loop().call_later(HEAD_SECONDS, transport.abort)

    def data_received(self, data: bytes) -> None:
        if self.timer is not None:
            if HEAD_END in self.tail + data:
                self.timer.cancel()
                self.timer = None
            self.tail = (self.tail + data)[1 - len(HEAD_END):]
        self.inner.data_received(data)

    def connection_lost(self, why: Exception | None) -> None:
        self.connections.count -= 1
        if self.timer is not None:
            self.timer.cancel()
        self.inner.connection_lost(why)

    def eof_received(self) -> None:
        self.inner.eof_received()

    def pause_writing(self) -> None:
        self.inner.pause_writing()

    def resume_writing(self) -> None:
        self.inner.resume_writing()
