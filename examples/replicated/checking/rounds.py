"""Rounds of faults: users ask, something happens to a machine, it is healed, and then all is compared."""
from __future__ import annotations

import random
import time
from typing import NamedTuple

from checking import faults, holds
from checking.cluster import HOSTS, Cluster, Failed
from checking.load import Load, founding
from replicated import journal
from replicated.client import fresh_name

GROUP = "rooms"
# The commands of a round that come before the fault, and those that come at once behind it.
BEFORE, BURST = 20, 60
# How long a fault lasts that is no pause, in seconds.
LASTS = 6.0
# How long one round's commands may take behind the fault's end, in seconds.
MOST = 120.0


class Asked(NamedTuple):
    rounds: int
    commands: int
    # How long a pause lasts, in seconds.
    pause: float
    seed: int


class Rounds:
    def __init__(self, cluster: Cluster, asked: Asked) -> None:
        self.cluster = cluster
        self.asked = asked
        self.draw = random.Random(asked.seed)
        self.load = Load(lambda user: cluster.client(GROUP, user), asked.seed)

    def run(self) -> None:
        client = self.cluster.client(GROUP)
        for line in founding():
            client.ask(line, MOST)
        client.close()
        for number in range(1, self.asked.rounds + 1):
            self.round(number)

    def round(self, number: int) -> None:
        fault = faults.drawn(self.cluster, faults.KINDS[(number - 1) % len(faults.KINDS)], self.draw)
        lasts = self.asked.pause if fault.kind == "pause" else LASTS
        count = self.asked.commands // self.asked.rounds
        begun, known = time.monotonic(), len(self.load.answered)
        paced = lasts / max(count - BURST, 1) * 7
        threads = self.load.ask(count, lambda at: 0 if at < BURST else paced)
        while len(self.load.answered) < known + BEFORE:
            time.sleep(0.001)
        faults.strike(self.cluster, fault, self.draw)
        ends = time.monotonic() + lasts
        if fault.kind == "cut":
            self.tells_nothing(fault.name)
        time.sleep(max(ends - time.monotonic(), 0))
        inside = len(self.load.answered) - known
        faults.heal(self.cluster, fault)
        for thread in threads:
            thread.join(MOST)
        found = self.load.answered[known:]
        said = f"round {number}: {fault.said}, for {lasts:g} s; {inside} of {len(found)} commands answered by its end"
        said += f", {sum(1 for it in found if it.again)} asked again"
        self.hold(said, begun)

    def tells_nothing(self, name: str) -> None:
        """A machine that is cut off puts nothing, and says so. Of its own state it tells the place."""
        alone = self.cluster.client(GROUP, list(HOSTS).index(name))
        answer = alone.exchange(fresh_name() + b" 0 tick 0")
        place = alone.read(b"0 value o log answer").number
        alone.close()
        if b" - unknown" not in answer:
            raise Failed(f"{name} is cut off, and answered {answer.decode()}")
        print(f"  {name} is cut off: it answers no command, and reads at place {place}", flush=True)

    def hold(self, said: str, begun: float) -> None:
        """Compares all there is, and prints the round's line."""
        last = self.cluster.caught_up(GROUP)
        log = list(self.cluster.log(GROUP).all())
        paths = {name: self.cluster.journal(GROUP, name) for name in HOSTS}
        wrongs = holds.wrongs(log, {name: journal.steps(path) for name, path in paths.items()}, self.load.answered)
        wrongs += holds.numbers_told_twice(self.load.answered)
        wrongs += [f"{line.decode()} was never answered" for line in self.load.lost]
        digests = {holds.digest(journal.printed(path)) for path in paths.values()}
        if len(digests) != 1:
            wrongs.append(f"the journals' digests are {', '.join(sorted(digests))}")
        print(f"{said}; log {last}, digests {' '.join(sorted(digests))}; {time.monotonic() - begun:.1f} s", flush=True)
        if wrongs:
            raise Failed("\n".join(wrongs[:20]))
