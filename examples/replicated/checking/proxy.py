"""A network between the machines that can be cut: it passes bytes, and stops passing those from or to a machine that is cut off.

It is a process of its own. Its first line of input has its routes, each later one is `cut NAME` or `heal`; it prints `done` for each. It ends
with its input. Bytes that are held back go on when it is healed, as a network's would."""
from __future__ import annotations

import asyncio
import json
import re
import sys
from typing import NamedTuple

# A server of etcd tells another one by this header who it is.
FROM = re.compile(rb"X-Server-From: ([0-9a-f]+)\r\n", re.I)
CHUNK = 65_536


class Route(NamedTuple):
    listen: tuple[str, int]
    to: tuple[str, int]
    # The machine that it leads to, and the one that it comes from, if its first bytes don't tell it.
    target: str
    source: str | None


class Network:
    def __init__(self) -> None:
        self.cut: set[str] = set()
        self.changed = asyncio.Condition()
        # The names of etcd's servers by their numbers.
        self.members: dict[str, str] = {}

    async def passes(self, ends: set[str]) -> None:
        async with self.changed:
            await self.changed.wait_for(lambda: not ends & self.cut)

    async def change(self, words: list[str]) -> None:
        async with self.changed:
            if words[0] == "cut":
                self.cut.add(words[1])
            elif words[0] == "members":
                self.members = json.loads(words[1])
            else:
                self.cut.clear()
            self.changed.notify_all()

    def source(self, route: Route, first: bytes) -> set[str]:
        found = FROM.search(first)
        name = route.source or (self.members.get(found[1].decode()) if found else None)
        return {name} if name else set()

    async def relay(self, route: Route, reader: asyncio.StreamReader, writer: asyncio.StreamWriter) -> None:
        try:
            first = await reader.read(CHUNK)
            ends = self.source(route, first) | {route.target}
            await self.passes(ends)
            there, back = await asyncio.open_connection(*route.to)
        except OSError:
            writer.close()
            return
        back.write(first)
        await asyncio.gather(self.pump(ends, reader, back), self.pump(ends, there, writer))

    async def pump(self, ends: set[str], reader: asyncio.StreamReader, writer: asyncio.StreamWriter) -> None:
        try:
            while raw := await reader.read(CHUNK):
                await self.passes(ends)
                writer.write(raw)
                await writer.drain()
        except OSError:
            pass
        finally:
            writer.close()


async def lines() -> asyncio.StreamReader:
    reader = asyncio.StreamReader()
    await asyncio.get_running_loop().connect_read_pipe(lambda: asyncio.StreamReaderProtocol(reader), sys.stdin)
    return reader


async def main() -> None:
    told = await lines()
    network = Network()
    for listen, to, target, source in json.loads(await told.readline()):
        route = Route((listen[0], listen[1]), (to[0], to[1]), target, source)
        await asyncio.start_server(lambda r, w, route=route: network.relay(route, r, w), *route.listen)  # type: ignore[misc]
    print("done", flush=True)
    while line := await told.readline():
        await network.change(line.decode().strip().split(maxsplit=1))
        print("done", flush=True)


if __name__ == "__main__":
    asyncio.run(main())
