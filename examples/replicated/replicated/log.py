"""The log of a group: each command a key of etcd, by rising numbers from 1.

A transaction puts commands at the next numbers. It fails if the first number is taken, if the number before it isn't, or if a command's name
is in the log already. So no number is skipped or taken twice, and no command stands twice, whoever asks again and how often."""
from __future__ import annotations

from collections.abc import Iterator, Sequence
from typing import NamedTuple

from replicated.etcd import Etcd, Pair, Range, Txn

# The most commands of a transaction: two puts each, and etcd admits 128.
MOST_PUT = 40
# The most entries that one reading brings.
MOST_READ = 500
DIGITS = 12


class Broken(Exception):
    """The log isn't what its rules make it: somebody else has written to it."""


class Request(NamedTuple):
    """A command's own name, given by who asks, and its line, `CLIENT COMMAND`."""

    name: bytes
    line: bytes


class Entry(NamedTuple):
    number: int
    name: bytes
    line: bytes


class Put(NamedTuple):
    """What a try to put commands found: the entries behind the number, which are the commands themselves if they were put, and the number
    of each command that was in the log before."""

    entries: list[Entry]
    numbers: dict[bytes, int]


class Log:
    def __init__(self, etcd: Etcd, group: str) -> None:
        self.etcd = etcd
        self.group = group.encode()

    def put(self, behind: int, requests: Sequence[Request]) -> Put:
        """Puts the commands at the numbers behind one that is taken. If that fails, nothing is put."""
        found = self.etcd.do(self.putting(behind, requests))
        if found.is_put:
            return Put([Entry(number, *request) for number, request in enumerate(requests, behind + 1)], {})
        entries, *named = found.ranges
        numbers = {request.name: int(pairs[0].value) for request, pairs in zip(requests, named) if pairs}
        return Put(entries_of(entries, behind), numbers)

    def putting(self, behind: int, requests: Sequence[Request]) -> Txn:
        numbered = list(enumerate(requests, behind + 1))
        return Txn(
            absent=[self.at(behind + 1), *(self.named(request) for request in requests)],
            present=[self.at(behind)] if behind else [],
            puts=[pair for number, request in numbered for pair in self.pairs(number, request)],
            otherwise=[self.range_behind(behind), *(Range(self.named(request)) for request in requests)],
        )

    def pairs(self, number: int, request: Request) -> list[Pair]:
        return [Pair(self.at(number), b" ".join(request)), Pair(self.named(request), b"%d" % number)]

    def after(self, behind: int) -> list[Entry]:
        """The next entries behind a number, as many as one reading brings."""
        return entries_of(self.etcd.read(self.range_behind(behind)), behind)

    def has(self, number: int) -> bool:
        return bool(self.etcd.read(Range(self.at(number))))

    def all(self) -> Iterator[Entry]:
        last = 0
        while found := self.after(last):
            yield from found
            last = found[-1].number

    def agreed(self, number: int, digest: bytes) -> bytes:
        """The digest that stands beside a number: this one, if none stood there."""
        key = b"%b/digest/%0*d" % (self.group, DIGITS, number)
        found = self.etcd.do(Txn(absent=[key], present=[], puts=[Pair(key, digest)], otherwise=[Range(key)]))
        return digest if found.is_put else found.ranges[0][0].value

    def changes(self) -> Iterator[int]:
        """The numbers of entries as they come, as far as one server tells them. The log itself is read by `after`."""
        for keys in self.etcd.changes(self.range_behind(0)):
            yield max((number_of(key) for key in keys), default=0)

    # ---- keys

    def at(self, number: int) -> bytes:
        return b"%b/log/%0*d" % (self.group, DIGITS, number)

    def named(self, request: Request) -> bytes:
        return b"%b/names/%b" % (self.group, request.name)

    def range_behind(self, number: int) -> Range:
        return Range(self.at(number + 1), b"%b/log0" % self.group, MOST_READ)


def number_of(key: bytes) -> int:
    return int(key.rpartition(b"/")[2])


def entries_of(pairs: Sequence[Pair], behind: int) -> list[Entry]:
    found = []
    for expected, (key, value) in enumerate(pairs, behind + 1):
        name, blank, line = value.partition(b" ")
        if number_of(key) != expected or not blank:
            raise Broken(f"number {expected} was to come, and {key.decode()} has {value!r}")
        found.append(Entry(expected, name, line))
    return found
