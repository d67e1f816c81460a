"""How much is taken from whoever asks: requests a second, refused credentials, connections, and time for a request's head."""
import asyncio
import time
from collections import OrderedDict
from collections.abc import Callable
from typing import cast

from front.config import Limits

# How many names a table of rates keeps. The oldest go first.
MOST_NAMES = 65_536
# How often connections are looked over, in seconds.
LOOKED = 1.0
FULL = b"HTTP/1.1 503 Service Unavailable\r\nContent-Length: 0\r\nRetry-After: 5\r\nConnection: close\r\n\r\n"
HEAD_END = b"\r\n\r\n"
LONG_HEAD = b"HTTP/1.1 431 Request Header Fields Too Large\r\nContent-Length: 0\r\nConnection: close\r\n\r\n"


class Rates:
    """A bucket of tokens for each name: so many a second flow in, and so many fit."""

    def __init__(self, rate: float, burst: float, clock: Callable[[], float] = time.monotonic) -> None:
        self.rate, self.burst, self._clock = rate, burst, clock
        self._buckets: OrderedDict[str, tuple[float, float]] = OrderedDict()

    def _left(self, name: str) -> tuple[float, float]:
        now = self._clock()
        left, since = self._buckets.get(name, (self.burst, now))
        return min(self.burst, left + (now - since) * self.rate), now

    def has(self, name: str) -> bool:
        """Whether there is a token left. Takes none."""
        return self._left(name)[0] >= 1

    def take(self, name: str) -> bool:
        """Takes a token. False where there is none."""
        left, now = self._left(name)
        is_there = left >= 1
        self._buckets[name] = (left - 1 if is_there else left, now)
        self._buckets.move_to_end(name)
        if len(self._buckets) > MOST_NAMES:
            self._buckets.popitem(last=False)
        return is_there


class Guarded(asyncio.Protocol):
    """A connection, watched: its head has a size and a time, and its idle time is bounded. All else goes to the server's own protocol."""

    def __init__(self, inner: asyncio.Protocol, connections: "Connections") -> None:
        self._inner, self._connections = inner, connections
        self._transport: asyncio.Transport | None = None
        self._waits_since = time.monotonic()
        # Bytes since the last request came or was answered, and whether they have the end of a head.
        self._taken = 0
        self._has_head = False
        self._last = b""
        self._busy = 0

    def connection_made(self, transport: asyncio.BaseTransport) -> None:
        self._transport = cast(asyncio.Transport, transport)
        if not self._connections.open(self._transport, self):
            self._transport.write(FULL)
            self._transport.close()
            self._inner = asyncio.Protocol()
            return
        self._inner.connection_made(transport)

    def data_received(self, data: bytes) -> None:
        self._taken += len(data)
        self._has_head = self._has_head or self._busy > 0 or HEAD_END in self._last + data
        self._last = data[-len(HEAD_END) :]
        limits = self._connections.limits
        if self._taken > limits.head + (2 * limits.policy_body if self._has_head else 0) and self._transport:
            # A head that doesn't end, or more than any request has.
            self._transport.write(b"" if self._has_head else LONG_HEAD)
            self._transport.close()
            return
        self._inner.data_received(data)

    def eof_received(self) -> bool | None:
        return self._inner.eof_received()

    def connection_lost(self, exc: Exception | None) -> None:
        if self._transport:
            self._connections.close(self._transport)
        self._inner.connection_lost(exc)

    def pause_writing(self) -> None:
        self._inner.pause_writing()

    def resume_writing(self) -> None:
        self._inner.resume_writing()

    # ---- what a request tells

    def begin(self) -> None:
        """A request came whole, but for its body."""
        self._busy += 1
        self._taken = 0

    def end(self) -> None:
        self._busy -= 1
        self._taken = 0
        self._has_head = False
        self._waits_since = time.monotonic()

    def is_overdue(self, now: float) -> bool:
        """Whether no request comes, or one that has begun doesn't end."""
        limits = self._connections.limits
        most = limits.receive if self._taken else limits.idle
        return not self._busy and now - self._waits_since > most

    def abort(self) -> None:
        if self._transport:
            self._transport.abort()


class Connections:
    """All connections, so many at once."""

    def __init__(self, limits: Limits) -> None:
        self.limits = limits
        self.refused = 0
        self._open: dict[asyncio.BaseTransport, Guarded] = {}

    def __len__(self) -> int:
        return len(self._open)

    def guard(self, server: Callable[[], asyncio.Protocol]) -> Callable[[], asyncio.Protocol]:
        """What makes a protocol for each connection, guarded."""
        return lambda: Guarded(server(), self)

    def open(self, transport: asyncio.BaseTransport, guarded: Guarded) -> bool:
        if len(self._open) >= self.limits.connections:
            self.refused += 1
            return False
        self._open[transport] = guarded
        return True

    def close(self, transport: asyncio.BaseTransport) -> None:
        self._open.pop(transport, None)

    def of(self, transport: asyncio.BaseTransport | None) -> Guarded | None:
        return self._open.get(transport) if transport else None

    async def look_over(self) -> None:
        """Closes connections that take too long, until it is cancelled."""
        while True:
            await asyncio.sleep(LOOKED)
            now = time.monotonic()
            for guarded in [it for it in self._open.values() if it.is_overdue(now)]:
                guarded.abort()
