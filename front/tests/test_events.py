"""Events, from any place on: none is missed, and none is another's."""
import asyncio
import json
import unittest

from front.tests.support import front, full


class Events(unittest.IsolatedAsyncioTestCase):
    async def test_a_reader_that_comes_back_misses_none(self) -> None:
        async with front("--rate", "1000") as running:
            for _ in range(20):
                told = await running.post("ann", "/try", right="enter", object="hall")
                await running.post("ann", "/end", session=told.body["session"])
            heard, behind = [], 0
            for _ in range(5):
                # Each stream is cut in its midst.
                async for kind, place, said in running.events("root", 2, behind):
                    if kind == "step":
                        heard.append(said)
                        behind = place
                        if place % 9 == 0:
                            break
            steps = await running.log()
            self.assertEqual([it["place"] for it in heard], list(range(1, len(heard) + 1)))
            for said, kept in zip(heard, steps):
                names = ("place", "client", "command", "reply")
                self.assertEqual([said[it] for it in names], [kept[it] for it in names])
            self.assertGreater(len(heard), 40)

    async def test_a_place_beyond_the_journals_end_is_refused_with_both(self) -> None:
        async with front() as running:
            place = (await running.post("ann", "/try", right="enter", object="hall")).body["place"]
            for who in ("ann", "root"):
                told = await running.ask(who, "GET", "/events", **{"Last-Event-ID": str(place + 1)})
                self.assertEqual(told.status, 409)
                self.assertEqual((told.body["behind"], told.body["place"]), (place + 1, place))
                # The end itself is a place to go on from.
                self.assertEqual([it async for it in running.events(who, 1, place)], [("at", place, {"place": place})])

    async def test_a_user_hears_of_its_own_alone(self) -> None:
        async with front() as running:
            first = await running.get("root", "/admin/steps?behind=0")
            begun = first.body["place"]

            async def hear() -> list[tuple[str, int, dict[str, object]]]:
                return [it async for it in running.events("ann", 4, begun)]

            hearing = asyncio.create_task(hear())
            await asyncio.sleep(0.5)
            mine = (await running.post("ann", "/try", right="sit", object="hall")).body
            await running.post("bob", "/try", right="sit", object="bench")
            taken = (await running.post("bob", "/try", right="sit", object="hall")).body
            heard = [it for it in await hearing if it[0] == "step"]
            self.assertEqual([it[1] for it in heard], [mine["place"], taken["place"]])
            self.assertEqual(heard[1][2]["sessions"], [{"session": 1, "outcome": "revoked", "label": "room", "right": "sit", "object": "hall"}])
            self.assertNotIn("bob", json.dumps(heard))
            # The one who tried isn't told of whose use it revoked.
            self.assertEqual(taken["revoked"], [])

    @full
    async def test_streams_of_a_user_are_bounded(self) -> None:
        async with front() as running:
            async def hold() -> None:
                async for _ in running.events("ann", 6):
                    pass

            holding = [asyncio.create_task(hold()) for _ in range(8)]
            await asyncio.sleep(1)
            self.assertEqual((await running.get("ann", "/events")).status, 429)
            for it in holding:
                it.cancel()


if __name__ == "__main__":
    unittest.main()
