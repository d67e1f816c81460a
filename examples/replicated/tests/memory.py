"""A stand-in for etcd's servers: keys in memory, one transaction at a time."""
from __future__ import annotations

from replicated.etcd import Done, Etcd, Pair, Range, Txn, Unavailable


class MemoryEtcd(Etcd):
    """Several of them share one dictionary, as servers of one cluster do."""

    def __init__(self, keys: dict[bytes, bytes]) -> None:
        super().__init__([])
        self.keys = keys
        # How many requests are done, and their answers lost.
        self.loses = 0

    def read(self, asked: Range) -> list[Pair]:
        if asked.end is None:
            return [Pair(asked.first, self.keys[asked.first])] if asked.first in self.keys else []
        end = asked.end
        found = sorted(key for key in self.keys if asked.first <= key < end)
        return [Pair(key, self.keys[key]) for key in found[: asked.most or None]]

    def do(self, asked: Txn) -> Done:
        is_put = not any(key in self.keys for key in asked.absent) and all(key in self.keys for key in asked.present)
        if is_put:
            self.keys.update(asked.puts)
        if self.loses:
            self.loses -= 1
            raise Unavailable("its answer is lost")
        return Done(is_put, [] if is_put else [self.read(it) for it in asked.otherwise])

    def replace(self, key: bytes, before: bytes, value: bytes) -> bool:
        if self.keys.get(key) == before:
            self.keys[key] = value
        return self.keys.get(key) == value

    def put(self, key: bytes, value: bytes) -> None:
        self.keys[key] = value
