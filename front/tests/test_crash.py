"""Ends of the monitor and of the front end itself: each request has one effect, nobody is served below what was told."""
import asyncio
import os
import pathlib
import signal
import time
import unittest

from front.tests.support import Front, Told, front, full


async def enter(running: Front, who: str, count: int, told: list[Told]) -> None:
    """Begins and ends uses, one after the other."""
    for _ in range(count):
        begun = await running.post(who, "/try", right="enter", object="hall")
        told.append(begun)
        told.append(await running.post(who, "/end", session=begun.body["session"]))


class Crashes(unittest.IsolatedAsyncioTestCase):
    async def test_each_acknowledged_step_is_in_the_journal_once(self) -> None:
        async with front("--rate", "10000", users=20) as running:
            told: list[Told] = []
            people = [it for it in running.people if it not in ("root", "meter")]
            asking = asyncio.gather(*(enter(running, it, 12, told) for it in people))
            for _ in range(5):
                await asyncio.sleep(0.4)
                self.assertTrue(await running.kill_monitor())
            await asking
            self.assertEqual({it.status for it in told}, {200})
            steps = await running.log()
            places = [it.body["place"] for it in told]
            self.assertEqual(len(set(places)), len(places))
            by_place = {it["place"]: it for it in steps}
            for it in told:
                word = "permitted" if it.body["outcome"] == "permitted" else "ended"
                self.assertEqual(by_place[it.body["place"]]["reply"], f"{word} {it.body['session']}")
            # Nothing was done that nobody was told of: tries and ends are as many as were asked.
            done = [it for it in steps if it["command"].startswith(("try", "end"))]
            self.assertEqual(len(done), len(told))

    @full
    async def test_a_request_that_is_repeated_over_a_crash_is_done_once(self) -> None:
        async with front() as running:
            asking = [
                asyncio.create_task(running.ask("ann", "POST", "/try", {"right": "enter", "object": "hall"}, None, **{"Idempotency-Key": "k"}))
                for _ in range(10)
            ]
            await asyncio.sleep(0.01)
            self.assertTrue(await running.kill_monitor())
            told = await asyncio.gather(*asking)
            told.append(await running.ask("ann", "POST", "/try", {"right": "enter", "object": "hall"}, None, **{"Idempotency-Key": "k"}))
            self.assertEqual({str(it.body) for it in told}, {str(told[0].body)})
            tries = [it for it in await running.log() if it["command"].startswith("try")]
            self.assertEqual([it["reply"] for it in tries], ["permitted 1"])

    @full
    async def test_a_monitor_that_ends_again_and_again_ends_the_front_end(self) -> None:
        async with front("--restarts", "2") as running:
            assert running.process
            until = time.monotonic() + 150
            while running.process.returncode is None and time.monotonic() < until:
                await running.kill_monitor()
                await asyncio.sleep(0.5)
            status = await asyncio.wait_for(running.process.wait(), 1)
            self.assertEqual(status, 128 + signal.SIGKILL)
            self.assertTrue(any("times within a minute" in it for it in running.said), running.said)

    async def test_sessions_are_known_again_and_unclaimed_uses_are_ended(self) -> None:
        async with front(users=70) as running:
            # The first and the 64th user have one number.
            for who in ("ann", "u63"):
                self.assertEqual((await running.post(who, "/try", right="enter", object="hall")).status, 200)
            self.assertEqual(await running.stop(signal.SIGKILL), -signal.SIGKILL)
            await running.start("--claim-seconds", "2", brings_policy=False)
            self.assertEqual((await running.post("u63", "/end", session=1)).status, 404)
            self.assertEqual((await running.get("ann", "/sessions/1")).body["state"], "accessing")
            await asyncio.sleep(5)
            # Ann has claimed hers, and nobody the other one.
            self.assertEqual((await running.get("ann", "/using")).body["using"][0]["session"], 1)
            self.assertEqual((await running.get("u63", "/sessions/2")).body["state"], "ended")
            steps = await running.log()
            self.assertEqual([(it["client"], it["reply"]) for it in steps if it["command"] == "end 2"], [(1, "ended 2")])

    async def test_a_journal_below_what_was_told_is_refused(self) -> None:
        async with front() as running:
            kept = running.journal.read_bytes()
            await running.post("ann", "/try", right="enter", object="hall")
            # Killed, so that nothing but the place was written as it was told.
            await running.stop(signal.SIGKILL)
            await asyncio.sleep(0.5)
            running.journal.write_bytes(kept)
            with self.assertRaises(AssertionError) as refused:
                await running.start()
            self.assertIn("1 of the 6 steps that were told is missing", str(refused.exception))
            assert running.process
            self.assertEqual(await running.process.wait(), 123)
            await running.start("--accept-loss")
            self.assertEqual((await running.get("ann", "/using")).body["using"], [])

    @full
    async def test_a_second_front_end_is_refused(self) -> None:
        async with front() as running:
            other = Front(running.folder, running.people)
            with self.assertRaises(AssertionError) as refused:
                await other.start()
            self.assertIn("is in use by process", str(refused.exception))

    async def test_nothing_is_made_where_it_cant_listen(self) -> None:
        """Neither a journal nor a companion, where the port is taken or the socket's path is another file's; and no socket stays behind."""
        async with front(starts=False) as running:
            socket = running.folder / "socket"
            before = {it.name for it in running.folder.iterdir()}
            taken = await asyncio.start_server(lambda *_: None, "127.0.0.1", 0)
            port = taken.sockets[0].getsockname()[1]
            file = running.folder / "policy"
            for words in (
                ("--listen", f"127.0.0.1:{port}"), ("--listen", f"127.0.0.1:{port}", "--socket", str(socket)), ("--socket", str(file)),
            ):
                with self.assertRaises(AssertionError) as refused:
                    await running.start(*words)
                self.assertIn("can't listen: ", str(refused.exception))
                assert running.process
                self.assertEqual(await running.process.wait(), 1)
                self.assertEqual({it.name for it in running.folder.iterdir()}, before)
            taken.close()
            await running.start("--listen", f"127.0.0.1:{port}", "--socket", str(socket))
            self.assertEqual((await running.get(None, "/healthz")).status, 200)
            self.assertEqual(await running.stop(), 0)
            self.assertFalse(socket.exists())

    @full
    async def test_it_ends_whole_and_writes_the_head(self) -> None:
        async with front() as running:
            await running.post("ann", "/try", right="enter", object="hall")
            self.assertEqual(await running.stop(), 0)
            said = (running.folder / "journal.told").read_text().split("\n")
            self.assertEqual((said[0], int(said[1].split()[1]), said[2]), ("ucon told 1", 6, "records 7"))

    @full
    async def test_peers_of_the_socket_are_known_by_their_uid(self) -> None:
        extra = f'\n[users.me]\nsubject = "me"\nuid = {os.getuid()}\n'
        async with front(extra=extra, starts=False) as running:
            path = running.folder / "socket"
            await running.start("--socket", str(path))
            self.assertIn('"user":"me"', await over_socket(path, "GET /me HTTP/1.1\r\nHost: x\r\nConnection: close\r\n\r\n"))
            # A token that is given decides, and the peer's uid then doesn't.
            said = await over_socket(path, "GET /me HTTP/1.1\r\nHost: x\r\nAuthorization: Bearer x\r\nConnection: close\r\n\r\n")
            self.assertIn("401", said.split("\r\n")[0])


class Connections(unittest.IsolatedAsyncioTestCase):
    async def test_connections_are_bounded_and_closed_where_nothing_comes(self) -> None:
        async with front("--connections", "5") as running:
            host, port = running.url.removeprefix("http://").split(":")
            open_ones = [await asyncio.open_connection(host, int(port)) for _ in range(8)]
            said = [await asyncio.wait_for(reader.read(12), 5) if n >= 4 else b"" for n, (reader, _) in enumerate(open_ones)]
            self.assertIn(b"HTTP/1.1 503", said)
            for _, writer in open_ones:
                writer.close()

    @full
    async def test_a_head_that_is_long_or_slow_is_cut(self) -> None:
        async with front() as running:
            host, port = running.url.removeprefix("http://").split(":")
            reader, writer = await asyncio.open_connection(host, int(port))
            writer.write(b"GET / HTTP/1.1\r\n" + b"".join(b"X-%d: %s\r\n" % (n, b"a" * 500) for n in range(60)))
            said = await asyncio.wait_for(reader.read(100), 5)
            self.assertTrue(said.startswith(b"HTTP/1.1 4"), said)
            writer.close()
            reader, writer = await asyncio.open_connection(host, int(port))
            writer.write(b"GET / HTTP/1.1\r\nHost:")
            self.assertEqual(await asyncio.wait_for(reader.read(100), 20), b"")
            writer.close()


async def over_socket(path: pathlib.Path, raw: str) -> str:
    reader, writer = await asyncio.open_unix_connection(str(path))
    writer.write(raw.encode())
    said = await asyncio.wait_for(reader.read(), 10)
    writer.close()
    return said.decode()


if __name__ == "__main__":
    unittest.main()
