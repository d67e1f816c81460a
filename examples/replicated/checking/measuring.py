"""How long a command takes, and how many are answered in a second: three servers of etcd and three machines, and no proxy between them."""
from __future__ import annotations

import os
import statistics
import threading
import time
from collections.abc import Callable, Iterable

from checking.cluster import HOSTS, Cluster
from replicated.client import Client, fresh_name
from replicated.log import Request

GROUP = "rooms"
MOST = 30.0


def percentile(found: Iterable[float], part: float) -> float:
    ordered = sorted(found)
    return ordered[min(int(len(ordered) * part), len(ordered) - 1)]


def line(what: str, seconds: list[float], whole: float) -> str:
    middle, late = statistics.median(seconds) * 1000, percentile(seconds, 0.99) * 1000
    return f"{what:<58} {len(seconds):>6} {middle:>9.2f} {late:>9.2f} {len(seconds) / whole:>9.0f}"


def timed(call: Callable[[], object], seconds: float) -> list[float]:
    """Each call's seconds, for so long."""
    found, ends = [], time.monotonic() + seconds
    while (begun := time.monotonic()) < ends:
        call()
        found.append(time.monotonic() - begun)
    return found


def together(clients: list[Client], ask: Callable[[Client], object], seconds: float) -> tuple[list[float], float]:
    """All calls' seconds, of all clients at once, and how long the whole took."""
    found: list[float] = []
    threads = [threading.Thread(target=lambda it=it: found.extend(timed(lambda: ask(it), seconds))) for it in clients]
    begun = time.monotonic()
    for thread in threads:
        thread.start()
    for thread in threads:
        thread.join()
    return found, time.monotonic() - begun


def step(client: Client) -> object:
    return client.ask(b"0 set o hall most 3", MOST)


def question(client: Client) -> object:
    return client.ask(b"0 value o hall most", MOST)


def local(client: Client) -> object:
    return client.read(b"0 value o hall most")


def run(cluster: Cluster, seconds: float) -> None:
    cluster.client(GROUP).ask(b"0 object hall", MOST)
    print(f"{'':<58} {'asked':>6} {'ms, 50 %':>9} {'99 %':>9} {'a second':>9}", flush=True)
    log = cluster.log("alone")
    turns = iter(range(10**9))
    for size in (1, 40):
        lines = [b"0 set o hall most 3"] * size
        found = timed(lambda: log.put(size * next(turns), [Request(fresh_name(), it) for it in lines]), seconds)
        print(line(f"etcd alone: transactions of {size}", found, seconds), flush=True)
        log, turns = cluster.log(f"alone{size}"), iter(range(10**9))
    for count in (1, 3, 12, 60):
        for what, ask in (("a step", step), ("a question through the log", question)):
            clients = [cluster.client(GROUP, at) for at in range(count)]
            found, whole = together(clients, ask, seconds)
            print(line(f"{what}, {count} at once", found, whole), flush=True)
    clients = [cluster.client(GROUP, at) for at in range(3)]
    found, whole = together(clients, local, seconds)
    print(line("a question of one machine's state, 3 at once", found, whole), flush=True)
    last = cluster.caught_up(GROUP)
    print(f"load {os.getloadavg()[0]:.0f} over {os.cpu_count()} processors; the log has {last} commands, on {', '.join(HOSTS)}", flush=True)
