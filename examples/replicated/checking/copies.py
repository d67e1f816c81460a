"""A fourth machine, which reads the log from its beginning: by the same program, and by one that decides one command otherwise."""
from __future__ import annotations

import pathlib
import shlex
import subprocess
import sys

from checking import holds
from checking.cluster import HERE, MOST_WAIT, Cluster, Failed, Process, free_port, place_of, wait
from replicated import journal
from replicated.client import Client
from replicated.etcd import Address
from replicated.machine import DIFFERS

HOST = "127.0.0.14"


class Fourth:
    """A machine beside the three. It has no journal yet."""

    def __init__(self, cluster: Cluster, group: str, folder: str, monitor: str) -> None:
        self.address: Address = free_port(HOST)
        self.folder = cluster.room / f"{group}-{folder}"
        self.errors = pathlib.Path(f"{self.folder}.log")
        words = cluster.machine_words(group, "a")
        for option, value in (("--listen", str(self.address)), ("--folder", str(self.folder)), ("--monitor", monitor)):
            words[words.index(option) + 1] = value
        self.process = Process(words, self.errors)


def new_machine(cluster: Cluster, group: str) -> str:
    """A machine that lost its disk: it comes to the log's end, and has the journal that the others have."""
    fourth = Fourth(cluster, group, "new", cluster.monitor)
    last = cluster.caught_up(group)
    try:
        fourth.process.start()
        wait(lambda: place_of(Client([fourth.address])) >= last, "a new machine doesn't come to the log's end")
    finally:
        fourth.process.kill()
    digests = {holds.digest(journal.printed(it)) for it in (fourth.folder / "journal", cluster.journal(group, "a"))}
    if len(digests) != 1:
        raise Failed(f"a new machine's journal is another one: {digests}")
    return f"a new machine comes to {last}, digest {' '.join(digests)}"


def another_version(cluster: Cluster, group: str) -> str:
    """What a copy that differs says as it stops, and as it is started again."""
    version = shlex.join([sys.executable, str(HERE / "checking" / "other_version.py")])
    fourth = Fourth(cluster, group, "other", f"{version} {cluster.monitor}")
    try:
        for _ in range(2):
            fourth.process.start()
            try:
                status = fourth.process.status(MOST_WAIT)
            except subprocess.TimeoutExpired:
                raise Failed("a copy that differs goes on") from None
            if status != DIFFERS:
                raise Failed(f"a copy that differs ended with {status}")
    finally:
        fourth.process.kill()
    said = [line for line in fourth.errors.read_text().splitlines() if line.startswith("machine: ")]
    if len(said) != 2 or said[0] != said[1]:
        raise Failed(f"a copy that differs said {said}")
    return f"another version: {said[0]}"
