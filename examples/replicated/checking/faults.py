"""What happens to a machine. Each fault is bounded: `heal` ends it, and the machine goes on."""
from __future__ import annotations

import os
import random
import signal
from typing import NamedTuple

from checking.cluster import HOSTS, Cluster, Process

# In this order, so that few rounds have those that take the most.
KINDS = ("both", "cut", "pause", "monitor", "etcd", "all")


class Fault(NamedTuple):
    kind: str
    name: str
    # What of the machine it strikes.
    processes: list[Process]
    said: str


def drawn(cluster: Cluster, kind: str, draw: random.Random) -> Fault:
    name = draw.choice(list(HOSTS))
    monitors = [process for (_, at), process in cluster.monitors.items() if at == name]
    server = cluster.servers[name]
    if kind == "all":
        return Fault(kind, name, [*cluster.servers.values(), *cluster.monitors.values()], "kill -9 of everything")
    if kind == "cut":
        return Fault(kind, name, [], f"{name} is cut off")
    if kind == "pause":
        processes, said = draw.choice([(monitors, "its monitor"), ([server], "its etcd"), ([*monitors, server], "all of it")])
        return Fault(kind, name, processes, f"{name} is paused, {said}")
    processes = {"both": [*monitors, server], "etcd": [server], "monitor": monitors}[kind]
    return Fault(kind, name, processes, f"{name}: kill -9 of {'both' if kind == 'both' else f'its {kind}'}")


def strike(cluster: Cluster, fault: Fault, draw: random.Random) -> None:
    if fault.kind == "cut":
        assert cluster.network
        cluster.network.tell(f"cut {fault.name}")
        return
    for process in fault.processes:
        members = process.members()
        if fault.kind == "pause":
            process.signal(signal.SIGSTOP)
        elif len(members) > 1 and draw.random() < 0.5:
            # One of them: the machine's process, or the monitor that it started. The others have to end by themselves.
            os.kill(draw.choice(members), signal.SIGKILL)
        else:
            process.signal(signal.SIGKILL)


def heal(cluster: Cluster, fault: Fault) -> None:
    if fault.kind == "cut":
        assert cluster.network
        cluster.network.tell("heal")
    for process in fault.processes:
        if fault.kind == "pause":
            process.signal(signal.SIGCONT)
        else:
            process.status(10)
            process.start()
