"""Moves an object from its group to another one.

Its attribute `here` is the fence. The policy permits a use only if it is 1, and revokes the uses that go on when it becomes 0. So the step
that closes the object ends its uses, and nobody begins one in the old group from then on, whatever a router still believes. A move that
was broken off at any point is done by asking for it again."""
from __future__ import annotations

import re

from replicated.client import Client
from replicated.etcd import Etcd, Range
from replicated.shards import Table

# How long one command may take, in seconds.
TRIES = 30.0
# What a move doesn't carry: the fence itself, and what marks the log's numbers.
NOT_CARRIED = (b"here", b"answer")


class NotMoved(Exception):
    """A step of a move was refused."""


def carried(policy: bytes) -> list[bytes]:
    """The attributes of objects that a policy declares."""
    return [name for name in re.findall(rb"^\s*attr\s+o\s+(\w+)", policy, re.M) if name not in NOT_CARRIED]


def told(client: Client, command: bytes, word: bytes) -> bytes:
    """The reply to a command of client 0, which has to begin with a word."""
    reply = client.ask(b"0 " + command, TRIES).reply
    if reply.split()[0] != word:
        raise NotMoved(f"{command.decode()}: {reply.decode()}")
    return reply


def move(etcd: Etcd, thing: bytes, group: bytes, policy: bytes) -> None:
    """Closes the object, reads its values, sets them in the new group, opens it there, and only then changes the table."""
    table, key = Table(etcd), b"objects/" + thing
    found = etcd.read(Range(key))
    if not found:
        raise NotMoved(f"no group has {thing.decode()}")
    before = found[0].value
    if before == group:
        return
    old, new = Client(table.machines(before)), Client(table.machines(group))
    told(old, b"set o %b here 0" % thing, b"ok")
    # It is there already if it was here once, or if a move was broken off.
    new.ask(b"0 object " + thing, TRIES)
    told(new, b"set o %b here 0" % thing, b"ok")
    for name in carried(policy):
        value = told(old, b"value o %b %b" % (thing, name), b"value").removeprefix(b"value ")
        told(new, b"set o %b %b %b" % (thing, name, value), b"ok")
    told(new, b"set o %b here 1" % thing, b"ok")
    if not etcd.replace(key, before, group):
        raise NotMoved(f"{thing.decode()} was moved by somebody else")
