"""The part of etcd's interface that the log needs: transactions, ranges and changes, by the JSON gateway that is in each server.

Debian's client for Python is a version of 2020, and needs gRPC beside it. The gateway is etcd's own, and as well kept as the server."""
from __future__ import annotations

import base64
import http.client
import json
from collections.abc import Iterator, Sequence
from typing import Any, NamedTuple

Json = dict[str, Any]
# How long one server may take to answer, in seconds.
PATIENCE = 2.0
# How long a stream of changes may be silent before it is asked for anew, in seconds.
SILENCE = 5.0


class Unavailable(Exception):
    """No server answered. What was asked for may be done, or not."""


class Address(NamedTuple):
    host: str
    port: int

    @classmethod
    def read(cls, text: str) -> Address:
        host, _, port = text.rpartition(":")
        return cls(host, int(port))

    def __str__(self) -> str:
        return f"{self.host}:{self.port}"


class Pair(NamedTuple):
    key: bytes
    value: bytes


class Range(NamedTuple):
    """The keys from `first`, before `end`, by rising order. With no end, that one key."""

    first: bytes
    end: bytes | None = None
    most: int = 0


class Txn(NamedTuple):
    """Puts all pairs if all of `absent` are absent and all of `present` are there. Otherwise it reads the ranges, at that same revision."""

    absent: Sequence[bytes]
    present: Sequence[bytes]
    puts: Sequence[Pair]
    otherwise: Sequence[Range]


class Done(NamedTuple):
    is_put: bool
    ranges: list[list[Pair]]


def coded(raw: bytes) -> str:
    return base64.b64encode(raw).decode()


def pairs_in(answer: Json) -> list[Pair]:
    found = answer.get("kvs", [])
    return [Pair(base64.b64decode(it["key"]), base64.b64decode(it.get("value", ""))) for it in found]


def range_request(asked: Range) -> Json:
    request: Json = {"key": coded(asked.first)}
    if asked.end is not None:
        request |= {"range_end": coded(asked.end), "limit": str(asked.most), "sort_order": "ASCEND", "sort_target": "KEY"}
    return request


def is_version(key: bytes, result: str) -> Json:
    return {"target": "VERSION", "key": coded(key), "version": "0", "result": result}


def txn_request(asked: Txn) -> Json:
    return {
        "compare": [is_version(key, "EQUAL") for key in asked.absent] + [is_version(key, "GREATER") for key in asked.present],
        "success": [{"requestPut": {"key": coded(key), "value": coded(value)}} for key, value in asked.puts],
        "failure": [{"requestRange": range_request(it)} for it in asked.otherwise],
    }


class Etcd:
    """The servers of one cluster. It stays with a server as long as that one answers, and goes on to the next one then.

    A request may be asked of several servers, and be done by each of them. So ask only for what may be done twice: each transaction here
    makes a key that it wants absent."""

    def __init__(self, servers: Sequence[Address], patience: float = PATIENCE) -> None:
        self.servers = list(servers)
        self.patience = patience
        self.at = 0
        self.connection: http.client.HTTPConnection | None = None

    def read(self, asked: Range) -> list[Pair]:
        """What a majority has at some moment of this call."""
        return pairs_in(self.ask("/v3/kv/range", range_request(asked)))

    def do(self, asked: Txn) -> Done:
        answer = self.ask("/v3/kv/txn", txn_request(asked))
        is_put = bool(answer.get("succeeded"))
        found = answer.get("responses", []) if not is_put else []
        return Done(is_put, [pairs_in(it["response_range"]) for it in found])

    def replace(self, key: bytes, before: bytes, value: bytes) -> bool:
        """Puts a value in place of another one. False if the key has neither that one nor the new one."""
        compare = [{"target": "VALUE", "key": coded(key), "value": coded(before), "result": "EQUAL"}]
        put = [{"requestPut": {"key": coded(key), "value": coded(value)}}]
        answer = self.ask("/v3/kv/txn", {"compare": compare, "success": put, "failure": []})
        return bool(answer.get("succeeded")) or self.read(Range(key)) == [Pair(key, value)]

    def put(self, key: bytes, value: bytes) -> None:
        self.ask("/v3/kv/put", {"key": coded(key), "value": coded(value)})

    def members(self) -> dict[str, str]:
        """The names of the servers, by their number in lower hexadecimal digits."""
        return {f"{int(it['ID']):x}": it["name"] for it in self.ask("/v3/cluster/member/list", {})["members"]}

    def changes(self, asked: Range) -> Iterator[list[bytes]]:
        """The keys of each change in a range, from now on. It ends if the server is silent or goes away."""
        assert asked.end is not None
        watched = {"create_request": {"key": coded(asked.first), "range_end": coded(asked.end)}}
        connection = http.client.HTTPConnection(*self.servers[self.at], timeout=SILENCE)
        try:
            connection.request("POST", "/v3/watch", json.dumps(watched).encode())
            stream = connection.getresponse()
            while line := stream.readline():
                events = json.loads(line).get("result", {}).get("events", [])
                yield [base64.b64decode(it["kv"]["key"]) for it in events]
        except (OSError, http.client.HTTPException, ValueError):
            return
        finally:
            connection.close()

    # ---- one request

    def ask(self, path: str, asked: Json) -> Json:
        body = json.dumps(asked).encode()
        failures = []
        for _ in self.servers:
            try:
                return self.answer(path, body)
            except (OSError, http.client.HTTPException, ValueError) as why:
                failures.append(f"{self.servers[self.at]}: {why or type(why).__name__}")
                self.go_on()
        raise Unavailable("; ".join(failures))

    def answer(self, path: str, body: bytes) -> Json:
        if self.connection is None:
            self.connection = http.client.HTTPConnection(*self.servers[self.at], timeout=self.patience)
        self.connection.request("POST", path, body)
        response = self.connection.getresponse()
        text = response.read()
        if response.status != 200:
            raise ValueError(f"status {response.status}, {text.decode(errors='replace').strip()}")
        answer: Json = json.loads(text)
        return answer

    def go_on(self) -> None:
        """Leaves the server for the next one."""
        if self.connection is not None:
            self.connection.close()
        self.connection = None
        self.at = (self.at + 1) % len(self.servers)
