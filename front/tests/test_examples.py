"""The examples' clients, against a front end with their policies. Those whose language isn't here are left out, and that is said."""
import asyncio
import os
import pathlib
import shutil
import tempfile
import unittest
from typing import Any

from front.tests.support import TOP, Front, front

EXAMPLES = TOP / "examples" / "front"


def made(folder: str) -> dict[str, list[str]]:
    """How each client is run, by its language. Those in Go are compiled, since `go run` hides the status."""
    ways = {"python3": ["client.py"], "node": ["client.mjs"]}
    return {name: [program, str(EXAMPLES / folder / file)] for name, (file,) in ways.items() if (program := shutil.which(name))}


async def built(folder: str, room: pathlib.Path) -> list[str]:
    target, go = room / folder, shutil.which("go")
    assert go
    env = {**os.environ, "GOCACHE": str(room / "cache"), "GOFLAGS": "-mod=mod", "GO111MODULE": "off", "GOPROXY": "off"}
    process = await asyncio.create_subprocess_exec(go, "build", "-o", str(target), str(EXAMPLES / folder / "client.go"), env=env)
    assert await asyncio.wait_for(process.wait(), 240) == 0
    return [str(target)]


class Examples(unittest.IsolatedAsyncioTestCase):
    async def clients(self, folder: str, room: pathlib.Path) -> dict[str, list[str]]:
        found = made(folder)
        if shutil.which("go") and os.environ.get("FRONT_CHECK") != "short":
            found["go"] = await built(folder, room)
        missing = [it for it in ("python3", "node", "go") if not shutil.which(it)]
        if missing:
            print(f"examples: {', '.join(missing)} isn't here, and its client isn't run")
        return found

    async def started(self, running: Front, words: list[str], *more: str) -> asyncio.subprocess.Process:
        env = {**os.environ, "UCON_URL": running.url, "UCON_TOKEN": running.people["ann"].token}
        return await asyncio.create_subprocess_exec(*words, *more, env=env, stdout=asyncio.subprocess.PIPE, stderr=asyncio.subprocess.STDOUT)

    async def ended(self, process: asyncio.subprocess.Process) -> tuple[str, int]:
        out, _ = await asyncio.wait_for(process.communicate(), 60)
        return out.decode(), process.returncode or 0

    async def set(self, running: Front, side: str, name: str, attribute: str, value: Any) -> None:
        told = await running.post("root", "/admin/set", side=side, name=name, attribute=attribute, value=value)
        self.assertEqual(told.status, 200, told.body)

    async def test_a_door_opens_and_shuts(self) -> None:
        with tempfile.TemporaryDirectory() as room:
            clients = await self.clients("door", pathlib.Path(room))
            async with front(policy=(EXAMPLES / "door" / "door.policy").read_text()) as running:
                for name, words in clients.items():
                    with self.subTest(name=name):
                        await self.set(running, "s", "ann", "badge", 0)
                        self.assertEqual(await self.ended(await self.started(running, words, "hall", "1")), ("shut: badge\n", 1))
                        await self.set(running, "s", "ann", "badge", 1)
                        self.assertEqual(await self.ended(await self.started(running, words, "hall", "1")), ("open\nshut: left\n", 0))
                        process = await self.started(running, words, "hall", "30")
                        assert process.stdout
                        self.assertEqual(await asyncio.wait_for(process.stdout.readline(), 30), b"open\n")
                        await self.set(running, "s", "ann", "badge", 0)
                        self.assertEqual(await self.ended(process), ("shut: revoked\n", 1))

    async def test_a_file_is_shown_once_it_was_signed_for(self) -> None:
        with tempfile.TemporaryDirectory() as room:
            clients = await self.clients("data_room", pathlib.Path(room))
            for name, words in clients.items():
                async with front(policy=(EXAMPLES / "data_room" / "data_room.policy").read_text()) as running:
                    with self.subTest(name=name):
                        await running.post("root", "/admin/object", name="agreement")
                        self.assertEqual(await self.ended(await self.started(running, words, "paper", "1")), ("hidden: known\n", 1))
                        await self.set(running, "s", "ann", "cleared", ["none"])
                        said = "signing the agreement\npaper is shown\nhidden: done\n"
                        self.assertEqual(await self.ended(await self.started(running, words, "paper", "1")), (said, 0))

    async def test_a_song_stops_with_the_credit(self) -> None:
        with tempfile.TemporaryDirectory() as room:
            clients = await self.clients("pay_per_use", pathlib.Path(room))
            async with front(policy=(EXAMPLES / "pay_per_use" / "music.policy").read_text()) as running:
                for name, words in clients.items():
                    with self.subTest(name=name):
                        await self.set(running, "s", "ann", "credit", 0)
                        self.assertEqual(await self.ended(await self.started(running, words, "hall", "9")), ("silent: funds\n", 1))
                        await self.set(running, "s", "ann", "credit", 7)
                        said, status = await self.ended(await self.started(running, words, "hall", "9"))
                        self.assertEqual((said, status), ("hall plays\nsilent after 2 s: left\n", 1))


if __name__ == "__main__":
    unittest.main()
