"""What tests share: a front end over a journal of its own, and whoever asks it."""
import asyncio
import contextlib
import json
import logging
import os
import pathlib
import re
import signal
import sys
import tempfile
import time
import unittest
from collections.abc import AsyncIterator
from dataclasses import dataclass, field
from typing import Any

import aiohttp

from front.users import SECRET_BYTES, User, digest_of, table_of

# Tests of unittest run their loops with debugging on, which says of each slow call how slow it was.
logging.getLogger("asyncio").setLevel(logging.ERROR)

TOP = pathlib.Path(__file__).resolve().parent.parent.parent
# What front/check leaves out of its short form.
full = unittest.skipIf(os.environ.get("FRONT_CHECK") == "short", "it is tried in the full form of front/check")
# How long a front end may take to begin, and any one request, in seconds.
BEGINNING = 180.0
LONGEST = 30.0

DOOR = """\
attr s cleared : int 0..1 = 1;
attr o seats : int 0..9 = 1;
attr o taken : int 0..9 = 0;
right sit {
  pre a cleared: s.cleared = 1;
  on a room: o.taken <= o.seats;
  before o.taken = o.taken + 1;
  after_end o.taken = o.taken - 1;
  after_revoke o.taken = o.taken - 1;
}
right sign { pre b signed: done sign; }
right enter { on a cleared: s.cleared = 1; }
right shut {
  pre a any: s.cleared >= 0;
  on a never: s.cleared = 0;
}
"""


@dataclass
class Person:
    """Somebody with a token, or without."""

    name: str
    token: str = ""
    headers: dict[str, str] = field(default_factory=dict)


@dataclass
class Told:
    """What came back."""

    status: int
    body: Any
    headers: "dict[str, str]"


class Front:
    """A front end that runs, in a folder of its own."""

    def __init__(self, folder: pathlib.Path, people: dict[str, Person]) -> None:
        self.folder, self.people = folder, people
        self.journal = folder / "journal"
        self.url = ""
        self.process: asyncio.subprocess.Process | None = None
        self.said: list[str] = []
        self._hearing: asyncio.Task[None] | None = None
        self._session: aiohttp.ClientSession | None = None

    async def start(self, *words: str, brings_policy: bool = True) -> None:
        policy = ["--policy", str(self.folder / "policy")] if brings_policy else []
        self.process = await asyncio.create_subprocess_exec(
            sys.executable, str(TOP / "front"), "--journal", str(self.journal), *policy, "--users", str(self.folder / "users"),
            *(() if "--listen" in words else ("--listen", "127.0.0.1:0")), *words, stderr=asyncio.subprocess.PIPE,
        )
        begun = asyncio.get_running_loop().create_future()
        self._hearing = asyncio.create_task(self._hear(begun))
        await asyncio.wait_for(begun, BEGINNING)
        if self._session is None:
            connector = aiohttp.TCPConnector(limit=0)
            self._session = aiohttp.ClientSession(connector=connector, timeout=aiohttp.ClientTimeout(total=LONGEST))

    async def _hear(self, begun: "asyncio.Future[None]") -> None:
        assert self.process and self.process.stderr
        async for raw in self.process.stderr:
            line = raw.decode(errors="replace").rstrip()
            self.said.append(line)
            found = re.search(r"listening on (http://\S+),", line)
            if found and not begun.done():
                self.url = found[1]
                begun.set_result(None)
        if not begun.done():
            begun.set_exception(AssertionError("it didn't begin:\n" + "\n".join(self.said)))

    async def stop(self, number: int = signal.SIGTERM) -> int:
        assert self.process
        if self.process.returncode is None:
            self.process.send_signal(number)
        try:
            status = await asyncio.wait_for(self.process.wait(), LONGEST)
        except asyncio.TimeoutError:
            self.process.kill()
            raise
        if self._hearing:
            await self._hearing
        return status

    async def close(self) -> None:
        if self._session:
            await self._session.close()
        if self.process and self.process.returncode is None:
            await self.stop()

    # ---- asking

    async def ask(self, who: Person | str | None, method: str, path: str, body: Any = None, raw: bytes | None = None, **headers: str) -> Told:
        person = self.people[who] if isinstance(who, str) else who
        given = {"Authorization": f"Bearer {person.token}"} if person else {}
        data = raw if raw is not None else None if body is None else json.dumps(body).encode()
        kind = {"Content-Type": "application/json"} if data is not None else {}
        assert self._session
        async with self._session.request(method, self.url + path, data=data, headers={**given, **kind, **headers}) as response:
            text = await response.read()
            is_json = response.content_type == "application/json"
            return Told(response.status, json.loads(text) if is_json else text.decode(), dict(response.headers))

    async def post(self, who: str | None, path: str, **body: Any) -> Told:
        return await self.ask(who, "POST", path, body)

    async def get(self, who: str | None, path: str) -> Told:
        return await self.ask(who, "GET", path)

    async def events(self, who: str, seconds: float, behind: int | None = None) -> AsyncIterator[tuple[str, int, Any]]:
        """Messages as they come: kind, id, and what is said."""
        headers = {"Authorization": f"Bearer {self.people[who].token}"} | ({} if behind is None else {"Last-Event-ID": str(behind)})
        assert self._session
        until = time.monotonic() + seconds
        async with self._session.get(self.url + "/events", headers=headers) as response:
            assert response.status == 200, response.status
            kind, place, said = "", 0, None
            while time.monotonic() < until:
                try:
                    raw = await asyncio.wait_for(response.content.readline(), max(until - time.monotonic(), 0.01))
                except asyncio.TimeoutError:
                    return
                word, _, rest = raw.decode().rstrip("\n").partition(": ")
                if raw == b"":
                    return
                if word == "id":
                    place = int(rest)
                elif word == "event":
                    kind = rest
                elif word == "data":
                    said = json.loads(rest)
                elif word == "" and raw == b"\n" and said is not None:
                    yield kind, place, said
                    said = None

    # ---- looking behind it

    def monitor(self) -> int:
        """The process of the monitor: the one that the front end started and that holds the journal."""
        assert self.process
        found = children(self.process.pid)
        below = [it for child in found for it in children(child)]
        return (below or found)[0]

    async def kill_monitor(self) -> bool:
        """Kills the monitor, which may be about to start. Whether there was one."""
        for _ in range(400):
            with contextlib.suppress(IndexError, ProcessLookupError):
                os.kill(self.monitor(), signal.SIGKILL)
                return True
            await asyncio.sleep(0.02)
        return False

    async def log(self) -> list[dict[str, Any]]:
        """The journal's steps, as `ucon log --json` says them."""
        process = await asyncio.create_subprocess_exec(
            sys.executable, str(TOP / "ucon"), "log", str(self.journal), "--json", stdout=asyncio.subprocess.PIPE
        )
        out, _ = await asyncio.wait_for(process.communicate(), LONGEST)
        return [json.loads(it) for it in out.splitlines()]


def children(process: int) -> list[int]:
    try:
        text = pathlib.Path(f"/proc/{process}/task/{process}/children").read_text()
    except OSError:
        return []
    return [int(it) for it in text.split()]


def person(name: str) -> Person:
    return Person(name, f"{name}.{os.urandom(SECRET_BYTES).hex()}")


def table(person: Person, number: int, role: str = "user", subject: str = "", uid: int | None = None) -> str:
    digest = digest_of(person.token.partition(".")[2])
    return table_of(User(person.name, subject or person.name, role, number, digest, uid))


@contextlib.asynccontextmanager
async def front(*words: str, policy: str = DOOR, users: int = 2, extra: str = "", starts: bool = True) -> AsyncIterator[Front]:
    """A front end with users `ann`, `bob`, `u2` .., an administrator `root` and a `meter`."""
    with tempfile.TemporaryDirectory(prefix="ucon-front-") as name:
        folder = pathlib.Path(name)
        people = {it: person(it) for it in [("ann", "bob")[n] if n < 2 else f"u{n}" for n in range(users)]}
        tables = [table(it, n % 63 + 1) for n, it in enumerate(people.values())]
        people |= {"root": person("root"), "meter": person("meter")}
        tables += [table(people["root"], 1, "admin"), table(people["meter"], 1, "metrics")]
        (folder / "users").write_text("\n".join(tables) + extra)
        (folder / "policy").write_text(policy)
        running = Front(folder, people)
        try:
            if starts:
                await running.start(*words)
                for thing in ("hall", "bench", "paper"):
                    assert (await running.post("root", "/admin/object", name=thing)).status == 200
            yield running
        finally:
            await running.close()
