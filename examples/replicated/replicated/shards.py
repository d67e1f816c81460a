"""Several groups: a table from objects to groups, and from groups to their machines, which etcd keeps, and a router that follows it."""
from __future__ import annotations

import re
import socketserver
import time

from replicated.client import Client, NoAnswer
from replicated.etcd import Address, Etcd, Pair, Range, Txn, Unavailable

# How old what is known of the table may be, in seconds.
FRESH = 1.0
# How long a group may take, in seconds.
TRIES = 10.0
LINE = re.compile(rb"([A-Za-z0-9_-]{1,64}) ([a-z][a-z0-9_]{0,31}) ([ -~]+)")


class Table:
    def __init__(self, etcd: Etcd) -> None:
        self.etcd = etcd
        self.known: dict[bytes, tuple[float, bytes]] = {}

    def found(self, key: bytes) -> bytes:
        """What the table had within the last second. Refused if there is nothing."""
        at, value = self.known.get(key, (0.0, b""))
        if time.monotonic() - at > FRESH:
            pairs = self.etcd.read(Range(key))
            if not pairs:
                raise KeyError(key.decode())
            value = pairs[0].value
            self.known[key] = (time.monotonic(), value)
        return value

    def group_of(self, name: bytes) -> bytes:
        return self.found(b"objects/" + name)

    def machines(self, group: bytes) -> list[Address]:
        return [Address.read(it) for it in self.found(b"groups/" + group).decode().split(",")]


class Handler(socketserver.StreamRequestHandler):
    """A line `NAME OBJECT CLIENT COMMAND` is answered `NAME NUMBER REPLY` by the group that has the object."""

    def handle(self) -> None:
        assert isinstance(self.server, Router)
        self.table = Table(Etcd(self.server.etcd))
        self.clients: dict[bytes, Client] = {}
        while (line := self.rfile.readline(70_000)).endswith(b"\n"):
            self.wfile.write(self.answered(line[:-1]) + b"\n")

    def answered(self, line: bytes) -> bytes:
        if not (parts := LINE.fullmatch(line)):
            return b"? - no line of a name, an object, a client and a command"
        name, thing, rest = parts.groups()
        try:
            told = self.client(thing).ask(rest, TRIES, name)
            return b"%b %d %b" % (name, told.number, told.reply)
        except KeyError:
            return name + b" - no group has the object"
        except (NoAnswer, Unavailable, ValueError):
            return name + b" - unknown: ask again under this name"

    def client(self, thing: bytes) -> Client:
        group = self.table.group_of(thing)
        if group not in self.clients:
            self.clients[group] = Client(self.table.machines(group))
        return self.clients[group]


class Router(socketserver.ThreadingTCPServer):
    allow_reuse_address = True
    daemon_threads = True

    def __init__(self, address: Address, etcd: list[Address]) -> None:
        super().__init__(address, Handler)
        self.etcd = etcd


def put_group(etcd: Etcd, group: bytes, machines: list[Address]) -> None:
    etcd.put(b"groups/" + group, ",".join(map(str, machines)).encode())


def put_object(etcd: Etcd, thing: bytes, group: bytes) -> bool:
    """Gives an object to a group. False if some group has it already."""
    key = b"objects/" + thing
    return etcd.do(Txn(absent=[key], present=[], puts=[Pair(key, group)], otherwise=[])).is_put
