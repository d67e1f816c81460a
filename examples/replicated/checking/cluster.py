"""Three machines on the loopback range: a server of etcd and the groups' monitors on each. All processes are of this script, which ends them."""
from __future__ import annotations

import json
import os
import pathlib
import signal
import socket
import subprocess
import sys
import time
from collections.abc import Callable, Sequence
from typing import IO

from replicated.client import Client, NoAnswer
from replicated.etcd import Address, Etcd, Unavailable
from replicated.log import Log

HERE = pathlib.Path(__file__).resolve().parent.parent
HOSTS = {"a": "127.0.0.11", "b": "127.0.0.12", "c": "127.0.0.13"}
# How long a start, or what is behind catching up, may take, in seconds.
MOST_WAIT = 60.0


class Failed(Exception):
    """What has to hold doesn't."""


def free_port(host: str) -> Address:
    with socket.socket() as found:
        found.bind((host, 0))
        return Address(host, found.getsockname()[1])


class Process:
    """A process and its children, which are one group. What it prints goes to a file, or to this script if `is_asked`."""

    def __init__(self, words: Sequence[str], errors: pathlib.Path, is_asked: bool = False) -> None:
        self.words = list(words)
        self.errors = errors
        self.is_asked = is_asked
        self.running: subprocess.Popen[bytes] | None = None

    def start(self) -> subprocess.Popen[bytes]:
        with open(self.errors, "ab") as errors:
            source = subprocess.PIPE if self.is_asked else subprocess.DEVNULL
            sink = subprocess.PIPE if self.is_asked else errors.fileno()
            self.running = subprocess.Popen(self.words, stdin=source, stdout=sink, stderr=errors, start_new_session=True)
        return self.running

    def signal(self, number: int) -> None:
        if self.running is not None:
            try:
                os.killpg(self.running.pid, number)
            except ProcessLookupError:
                # All of them have ended.
                pass

    def members(self) -> list[int]:
        """The process and all that it started, the first one first."""
        found = [] if self.running is None else [self.running.pid]
        for pid in found:
            path = pathlib.Path(f"/proc/{pid}/task/{pid}/children")
            found += [int(child) for child in path.read_text().split()] if path.exists() else []
        return found

    def kill(self) -> None:
        self.signal(signal.SIGKILL)
        if self.running is not None:
            self.running.wait()
        self.running = None

    def has_ended(self) -> bool:
        return self.running is None or self.running.poll() is not None

    def status(self, seconds: float) -> int:
        assert self.running is not None
        return self.running.wait(seconds)


class Network:
    """The proxy between the machines."""

    def __init__(self, routes: list[tuple[Address, Address, str, str | None]], errors: pathlib.Path) -> None:
        self.process = Process([sys.executable, str(HERE / "checking" / "proxy.py")], errors, is_asked=True)
        running = self.process.start()
        assert running.stdin and running.stdout
        self.input: IO[bytes] = running.stdin
        self.output: IO[bytes] = running.stdout
        self.tell(json.dumps(routes))

    def tell(self, line: str) -> None:
        self.input.write(line.encode() + b"\n")
        self.input.flush()
        if self.output.readline() != b"done\n":
            raise Failed("the proxy is gone")


class Cluster:
    """`groups` are the names of the groups; each has a monitor on each machine."""

    def __init__(self, room: pathlib.Path, monitor: str, groups: Sequence[str] = ("rooms",), has_proxy: bool = True) -> None:
        self.room = room
        self.monitor = monitor
        self.groups = list(groups)
        self.peers = {name: free_port(host) for name, host in HOSTS.items()}
        self.clients = {name: free_port(host) for name, host in HOSTS.items()}
        # Where each machine reaches etcd's servers, its own first; and where a server's peers reach it.
        self.reached = {name: [self.clients[name]] + [it for other, it in self.clients.items() if other != name] for name in HOSTS}
        self.peer_doors = dict(self.peers)
        self.network: Network | None = None
        room.mkdir(parents=True, exist_ok=True)
        if has_proxy:
            self.put_proxy()
        self.servers = {name: Process(self.server_words(name), room / f"etcd-{name}.log") for name in HOSTS}
        self.doors = {(group, name): free_port(host) for group in self.groups for name, host in HOSTS.items()}
        self.monitors = {at: Process(self.machine_words(*at), room / f"{at[0]}-{at[1]}.log") for at in self.doors}

    def put_proxy(self) -> None:
        """A door for each server's peers, and one for each machine to each other machine's server."""
        routes: list[tuple[Address, Address, str, str | None]] = []
        for name, host in HOSTS.items():
            self.peer_doors[name] = free_port(host)
            routes.append((self.peer_doors[name], self.peers[name], name, None))
            for other in HOSTS.keys() - {name}:
                door = free_port(host)
                routes.append((door, self.clients[other], other, name))
                self.reached[name][self.reached[name].index(self.clients[other])] = door
        self.network = Network(routes, self.room / "proxy.log")

    def server_words(self, name: str) -> list[str]:
        peers = ",".join(f"{it}=http://{door}" for it, door in self.peer_doors.items())
        words = f"etcd --name {name} --initial-cluster {peers} --initial-cluster-token {self.room.name} --log-level error --logger zap"
        words += f" --listen-client-urls http://{self.clients[name]} --advertise-client-urls http://{self.clients[name]}"
        words += f" --listen-peer-urls http://{self.peers[name]} --initial-advertise-peer-urls http://{self.peer_doors[name]}"
        return [*words.split(), "--data-dir", str(self.room / f"etcd-{name}")]

    def machine_words(self, group: str, name: str) -> list[str]:
        servers = ",".join(map(str, self.reached[name]))
        words = [sys.executable, str(HERE / "machine"), "--group", group, "--listen", str(self.doors[group, name]), "--etcd", servers]
        return [*words, "--policy", str(HERE / "rooms.policy"), "--folder", str(self.folder(group, name)), "--monitor", self.monitor]

    def folder(self, group: str, name: str) -> pathlib.Path:
        return self.room / f"{group}-{name}"

    def journal(self, group: str, name: str) -> pathlib.Path:
        return self.folder(group, name) / "journal"

    # ---- as a whole

    def start(self) -> None:
        for server in self.servers.values():
            server.start()
        wait(lambda: self.etcd().members(), "etcd's servers don't answer")
        if self.network:
            self.network.tell("members " + json.dumps(self.etcd().members(), separators=(",", ":")))
        for monitor in self.monitors.values():
            monitor.start()
        for group in self.groups:
            self.client(group).ask(b"0 tick 0", MOST_WAIT)
            self.caught_up(group)

    def stop(self) -> None:
        for process in [*self.monitors.values(), *self.servers.values()]:
            process.kill()
        if self.network:
            self.network.process.kill()

    def etcd(self) -> Etcd:
        return Etcd(list(self.clients.values()))

    def log(self, group: str) -> Log:
        return Log(self.etcd(), group)

    def client(self, group: str, at: int = 0) -> Client:
        return Client([self.doors[group, name] for name in HOSTS], at)

    def caught_up(self, group: str) -> int:
        """The log's last number, once each machine has it."""
        last = max((entry.number for entry in self.log(group).all()), default=0)
        for at, name in enumerate(HOSTS):
            wait(lambda: place_of(self.client(group, at)) >= last, f"{group} on {name} doesn't come to number {last}")
        return last


def place_of(client: Client) -> int:
    try:
        return client.read(b"0 value o log answer").number
    finally:
        client.close()


def wait(until: Callable[[], object], said: str) -> None:
    """Waits until a call gives what is true."""
    ends = time.monotonic() + MOST_WAIT
    while time.monotonic() < ends:
        try:
            if until():
                return
        except (Unavailable, NoAnswer, OSError):
            pass
        time.sleep(0.05)
    raise Failed(said)
