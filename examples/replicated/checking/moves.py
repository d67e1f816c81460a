"""Two groups and a router: users use an object while it is moved between them, back and forth."""
from __future__ import annotations

import itertools
import random
import subprocess
import sys
import threading
import time
from collections.abc import Sequence

from checking import holds
from checking.cluster import HERE, HOSTS, Cluster, Failed, free_port
from replicated import journal
from replicated.client import Client, Connection, fresh_name
from replicated.log import Entry
from replicated.moving import move
from replicated.shards import Router, put_group, put_object

GROUPS = ("east", "west")
THING = b"hall"
USERS = 4
# How long one command may take, in seconds.
MOST = 30.0


class User(threading.Thread):
    """Tries to use the object, and ends what it was permitted, over and over."""

    def __init__(self, user: int, router: Connection, ends: threading.Event) -> None:
        super().__init__(daemon=True)
        self.user = user
        self.router = router
        self.ends = ends
        self.told: list[tuple[bytes, bytes]] = []

    def run(self) -> None:
        draw = random.Random(self.user)
        while not self.ends.is_set():
            reply = self.ask(b"try u%d use %b" % (self.user, THING))
            time.sleep(draw.random() / 20)
            if reply.startswith(b"permitted"):
                self.ask(b"end " + reply.split()[1])

    def ask(self, command: bytes) -> bytes:
        name = fresh_name()
        while True:
            _, number, reply = self.router.exchange(b"%b %b %d %b" % (name, THING, self.user, command)).split(b" ", 2)
            if number != b"-":
                self.told.append((name, reply))
                return reply


def found(cluster: Cluster) -> None:
    """Two groups with the same subjects. The object is the first group's."""
    etcd = cluster.etcd()
    for group in GROUPS:
        put_group(etcd, group.encode(), [cluster.doors[group, name] for name in HOSTS])
        for user in range(1, USERS + 1):
            commands(cluster.client(group), b"subject u%d" % user, b"set s u%d credit 100000" % user)
    commands(cluster.client(GROUPS[0]), b"object " + THING, b"set o %b here 1" % THING)
    put_object(etcd, THING, GROUPS[0].encode())


def commands(client: Client, *asked: bytes) -> None:
    for command in asked:
        if client.ask(b"0 " + command, MOST).reply != b"ok":
            raise Failed(f"{command.decode()} wasn't done")
    client.close()


def tried(cluster: Cluster, count: int) -> str:
    """Moves the object so often."""
    found(cluster)
    router = Router(free_port(HOSTS["a"]), list(cluster.clients.values()))
    threading.Thread(target=router.serve_forever, daemon=True).start()
    ends, address = threading.Event(), router.server_address
    users = [User(user, Connection(address, MOST), ends) for user in range(1, USERS + 1)]  # type: ignore[arg-type]
    for user in users:
        user.start()
    draw = random.Random(count)
    policy = (HERE / "rooms.policy").read_bytes()
    for _, group in zip(range(count), itertools.cycle(reversed(GROUPS))):
        time.sleep(1)
        broken_off(cluster, group, draw.uniform(0.15, 0.5))
        move(cluster.etcd(), THING, group.encode(), policy)
    time.sleep(1)
    ends.set()
    for user in users:
        user.join(MOST)
    router.shutdown()
    return held(cluster, count, [it for user in users for it in user.told])


def broken_off(cluster: Cluster, group: str, after: float) -> None:
    """Begins a move, and kills who moves after so many seconds."""
    words = [sys.executable, str(HERE / "move"), THING.decode(), group, "--policy", str(HERE / "rooms.policy")]
    words += ["--etcd", ",".join(map(str, cluster.clients.values()))]
    moving = subprocess.Popen(words, stderr=subprocess.DEVNULL)
    time.sleep(after)
    moving.kill()
    moving.wait()


def held(cluster: Cluster, count: int, told: Sequence[tuple[bytes, bytes]]) -> str:
    """Each answer is in one group's journals, and the object counts the uses of both."""
    logs: dict[str, list[Entry]] = {}
    replies: dict[bytes, bytes] = {}
    for group in GROUPS:
        cluster.caught_up(group)
        logs[group] = list(cluster.log(group).all())
        steps = {name: journal.steps(cluster.journal(group, name)) for name in HOSTS}
        if wrongs := holds.wrongs(logs[group], steps, []):
            raise Failed("\n".join(wrongs[:20]))
        replies |= {entry.name: step.reply for entry, step in zip(logs[group], steps["a"]) if entry.line == step.line}
    permitted = [reply for reply in replies.values() if reply.startswith(b"permitted")]
    for name, reply in told:
        if reply.split()[0] in (b"permitted", b"ended", b"denied") and replies.get(name) != reply:
            raise Failed(f"{name.decode()} was answered {reply.decode()}, and the journals have {replies.get(name)!r}")
    last = GROUPS[count % 2]
    entered = cluster.client(last).ask(b"0 value o %b entered" % THING, MOST).reply
    if entered != b"value %d" % len(permitted):
        raise Failed(f"{len(permitted)} uses were permitted, and {last} tells {entered.decode()}")
    sizes = " and ".join(f"{len(log)} in {group}" for group, log in logs.items())
    return f"{count} moves, each broken off once: {len(told)} commands answered, {sizes}; {len(permitted)} uses permitted, the object counts as many"
