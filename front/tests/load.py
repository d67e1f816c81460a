"""Many connections at one pace, while the monitor is killed: each acknowledged step is in the journal once, and none twice.

    python3 -m front.tests.load SECONDS REQUESTS_A_SECOND CONNECTIONS KILLS"""
import asyncio
import collections
import contextlib
import json
import random
import sys
import time
from dataclasses import dataclass, field
from typing import Any

import aiohttp

from front.tests.support import Front, Person, front

# How often one request is sent, under one key, until it is acknowledged.
SENT_MOST = 6
USERS = 100
ENTER: dict[str, Any] = {"right": "enter", "object": "hall"}


@dataclass
class Load:
    """What was asked and acknowledged."""

    # By place what was acknowledged: the command as the journal has it, and the reply's first words.
    told: dict[int, tuple[str, str]] = field(default_factory=dict)
    seconds: list[float] = field(default_factory=list)
    repeated: int = 0
    statuses: "collections.Counter[int]" = field(default_factory=collections.Counter)
    faults: list[str] = field(default_factory=list)

    def note(self, command: str, word: str, body: dict[str, Any]) -> None:
        place = body["place"]
        if place in self.told:
            self.faults.append(f"place {place} was told twice: {self.told[place]} and {command}")
        self.told[place] = (command, f"{word} {body['session']}")


async def connection(running: Front, person: Person, load: Load, until: float, every: float, number: int) -> None:
    """One connection: begins a use and ends it, in turn, each request at its time and under a key of its own."""
    session_number: int | None = None
    async with aiohttp.ClientSession(connector=aiohttp.TCPConnector(limit=1), timeout=aiohttp.ClientTimeout(total=15)) as session:
        due = time.monotonic() + random.uniform(0, every)
        turn = 0
        # A use that has begun is ended, too, so that tries and ends are as many.
        while due < until or session_number is not None:
            await asyncio.sleep(max(due - time.monotonic(), 0))
            due += every
            turn += 1
            path, body = ("/try", ENTER) if session_number is None else ("/end", {"session": session_number})
            said = await asked(session, running.url + path, person, body, f"{number}-{turn}", load)
            if said is None:
                load.faults.append(f"{path} of {person.name} was never acknowledged")
                return
            if path == "/try":
                session_number = said["session"]
                load.note(f"try {person.name} enter hall", "permitted", said)
            else:
                load.note(f"end {session_number}", "ended", said)
                session_number = None


async def asked(session: aiohttp.ClientSession, url: str, person: Person, body: dict[str, Any], key: str, load: Load) -> dict[str, Any] | None:
    headers = {"Authorization": f"Bearer {person.token}", "Content-Type": "application/json", "Idempotency-Key": key}
    for _ in range(SENT_MOST):
        begun = time.perf_counter()
        with contextlib.suppress(aiohttp.ClientError, asyncio.TimeoutError):
            async with session.post(url, data=json.dumps(body), headers=headers) as response:
                said = await response.json()
                load.statuses[response.status] += 1
                if response.status == 200:
                    load.seconds.append(time.perf_counter() - begun)
                    return dict(said)
        load.repeated += 1
        await asyncio.sleep(0.5)
    return None


async def kill(running: Front, times: int, seconds: float) -> int:
    """Kills the monitor so often, spread over the time."""
    killed = 0
    for n in range(times):
        await asyncio.sleep(seconds / (times + 1))
        killed += await running.kill_monitor()
    return killed


def compare(load: Load, steps: list[dict[str, Any]]) -> None:
    """Each acknowledged step stands in the journal at its place, and no other try or end does."""
    by_place = {it["place"]: it for it in steps}
    for place, (command, reply) in load.told.items():
        kept = by_place.get(place)
        if kept is None or (kept["command"], kept["reply"]) != (command, reply):
            load.faults.append(f"told `{command}` -> `{reply}` at {place}, and the journal has {kept}")
    for it in steps:
        if it["command"].startswith(("try ", "end ")) and it["place"] not in load.told:
            load.faults.append(f"the journal has a step that was never acknowledged: {it}")
    replies = collections.Counter(it["reply"] for it in steps if it["command"].startswith(("try ", "end ")))
    load.faults += [f"`{reply}` stands {n} times in the journal" for reply, n in replies.items() if n > 1]


async def measure(seconds: float, rate: float, connections: int, kills: int) -> Load:
    async with front("--rate", "1000", "--connections", str(connections + 50), users=USERS) as running:
        people = [it for name, it in running.people.items() if name not in ("root", "meter")]
        load, begun = Load(), time.monotonic()
        until, every = begun + seconds, connections / rate
        asking = [connection(running, people[n % len(people)], load, until, every, n) for n in range(connections)]
        killed, *_ = await asyncio.gather(kill(running, kills, seconds), *asking)
        took = time.monotonic() - begun
        figures = (await running.get("meter", "/metrics")).body
        status = await running.stop()
        steps = await running.log()
        compare(load, steps)
        if status:
            load.faults.append(f"the front end ended with {status}")
        print(report(load, took, connections, killed, len(steps), figures), flush=True)
        return load


def report(load: Load, took: float, connections: int, killed: int, steps: int, figures: str) -> str:
    times = sorted(load.seconds) or [0.0]
    counts = {it.split(" ")[0]: it.split(" ")[1] for it in figures.splitlines() if it and not it.startswith("#")}
    found, again = counts["ucon_front_lines_recovered_total"], counts["ucon_front_lines_sent_again_total"]
    count, median, most = len(load.seconds), 1000 * times[len(times) // 2], 1000 * times[len(times) * 99 // 100]
    return (
        f"{count} requests in {took:.1f} s, {count / took:.0f} a second, from {connections} connections of {USERS} users\n"
        f"latency: median {median:.1f} ms, 99 % {most:.1f} ms, greatest {1000 * times[-1]:.1f} ms\n"
        f"kill -9 of the monitor: {killed} times; starts of it: {counts['ucon_front_monitor_starts_total']}\n"
        f"lines without a reply: {found} found in the journal, {again} sent again\n"
        f"requests that were sent again by who asked: {load.repeated}; statuses: {dict(load.statuses)}\n"
        f"acknowledged steps: {len(load.told)}, steps in the journal: {steps}; {ends_as(load)}"
    )


def ends_as(load: Load) -> str:
    return f"{len(load.faults)} FAULTS" if load.faults else "each acknowledged one is in it once, and none twice"


def main(words: list[str]) -> int:
    seconds, rate, connections, kills = (int(it) for it in words)
    load = asyncio.run(measure(seconds, rate, connections, kills))
    for it in load.faults[:20]:
        print(it)
    return 1 if load.faults or not load.told else 0


if __name__ == "__main__":
    sys.exit(main(sys.argv[1:]))
