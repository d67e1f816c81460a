"""The console in headless Chromium: what happens is seen within a second. CONSOLE_PICTURE=FILE keeps a picture of it."""
import asyncio
import json
import os
import pathlib
import signal
import time
import unittest

from front.tests.browser import Page, browser, page
from front.tests.support import DOOR, Front, front, full

# How soon a step is seen, in seconds. CONSOLE_SOON gives a machine that is busy with other things longer.
SOON = float(os.environ.get("CONSOLE_SOON", "1"))
# How long it is waited for at all.
LATE = 20.0


async def sign_in(shown: Page, running: Front, who: str) -> None:
    token = json.dumps(running.people[who].token)
    await shown.value(f"document.getElementById('token').value = {token}; document.querySelector('#enter button').click()")
    await shown.until("document.getElementById('link').textContent === 'live'", 20)


async def seen(shown: Page, code: str) -> float:
    return await shown.until(code, LATE)


@unittest.skipUnless(browser(), "Chromium isn't here: `apt-get install chromium`")
class Console(unittest.IsolatedAsyncioTestCase):
    async def test_a_use_is_seen_to_begin_and_to_be_revoked(self) -> None:
        async with front("--rate", "1000", users=6) as running, page(running.url) as shown:
            await sign_in(shown, running, "root")
            took = [await self.one_revokes_another(shown, running, session) for session in (1, 3, 5)]
            # A machine that is busy with other things may be late once.
            self.assertLess(min(took), SOON)
            self.assertEqual(await shown.value("document.querySelectorAll('#chart .cascade').length"), 3)
            # The values follow, at most a second behind.
            await shown.until("/hall|no reading/.test(document.getElementById('tables').textContent)", 10)
            await self.policy_is_edited(shown, running)

    async def one_revokes_another(self, shown: Page, running: Front, session: int) -> float:
        """Ann begins a use, and bob's next one revokes it. How long the page took at most to show each."""
        begun = time.monotonic()
        await running.post("ann", "/try", right="sit", object="hall")
        await shown.until(f"document.querySelector('#uses tr[data-session=\"{session}\"]') !== null", LATE)
        self.assertIn("ann", await shown.value("document.getElementById('uses').textContent"))
        took = time.monotonic() - begun
        begun = time.monotonic()
        await running.post("bob", "/try", right="sit", object="hall")
        await shown.until(f"document.querySelector('#uses tr[data-session=\"{session}\"]') === null", LATE)
        took = max(took, time.monotonic() - begun)
        await shown.until(f"document.getElementById('heard').textContent.includes('{session} (ann sit hall)')", LATE)
        if session < 5:
            await running.post("bob", "/end", session=session + 1)
        return took

    async def policy_is_edited(self, shown: Page, running: Front) -> None:
        async def write(text: str) -> None:
            place = "document.getElementById('text')"
            await shown.value(f"{place}.value = {json.dumps(text)}; {place}.dispatchEvent(new Event('input'))")

        await shown.until("document.getElementById('text').value.startsWith('attr s cleared')", 10)
        await write("right sit {\n  pre a x 1 = 1;\n}\n")
        await shown.until("document.getElementById('fault').textContent.includes('Line 2, column 11')", 60)
        await write("right enter {}\n")
        await shown.until("document.getElementById('fault').textContent.includes('takes it')", 60)
        await shown.value("document.getElementById('try-out').click()")
        await shown.until("document.getElementById('would').textContent.includes('[bob sit hall] by no_right')", 60)
        self.assertTrue(await shown.value("document.getElementById('amend').disabled"))
        await shown.value("document.querySelector('#would input').click()")
        await shown.value("document.getElementById('amend').click()")
        await shown.until("document.getElementById('would').textContent.includes('In force since step')", 10)
        await seen(shown, "document.querySelector('#uses tr') === null")

    @full
    async def test_a_user_sees_its_own(self) -> None:
        async with front() as running, page(running.url, dark=True) as shown:
            await running.post("bob", "/try", right="enter", object="hall")
            await sign_in(shown, running, "ann")
            await running.post("ann", "/try", right="enter", object="bench")
            await seen(shown, "document.querySelector('#uses tr[data-session=\"2\"]') !== null")
            text = await shown.value("document.body.innerText")
            self.assertNotIn("bob", text)
            self.assertNotIn("hall", text)
            for name, value in (("right", "enter"), ("object", "hall")):
                await shown.value(f"document.getElementById('ask-{name}').value = '{value}'")
            await shown.value("document.querySelector('#ask button').click()")
            await shown.until("/verdict|no reading/.test(document.getElementById('because').textContent)", 5)

    @full
    async def test_steps_that_are_gone_arent_shown_any_more(self) -> None:
        """Behind a loss that was accepted the page is behind the journal's end, and reads all again."""
        async with front() as running, page(running.url) as shown:
            kept = running.journal.read_bytes()
            await sign_in(shown, running, "root")
            for thing in ("hall", "bench"):
                await running.post("ann", "/try", right="enter", object=thing)
            await shown.until("document.getElementById('place').textContent === 'step 7'", LATE)
            await running.stop(signal.SIGKILL)
            await asyncio.sleep(0.5)
            running.journal.write_bytes(kept)
            await running.start("--accept-loss", "--listen", running.url.removeprefix("http://"))
            await shown.until("document.getElementById('place').textContent === 'step 5'", LATE)
            await shown.until("document.getElementById('link').textContent === 'live'", LATE)
            self.assertTrue(await shown.value("document.querySelector('#uses tr') === null"))

    @full
    async def test_nothing_is_asked_of_anywhere_else_and_each_control_has_a_name(self) -> None:
        async with front() as running, page(running.url) as shown:
            await sign_in(shown, running, "root")
            await asyncio.sleep(1)
            asked = await shown.value("performance.getEntriesByType('resource').map((it) => new URL(it.name).origin)")
            self.assertEqual(set(asked), {running.url})
            nameless = await shown.value(
                "[...document.querySelectorAll('input, textarea')].filter((it) => !it.labels.length).map((it) => it.id)"
            )
            self.assertEqual(nameless, [])
            self.assertEqual(await shown.value("document.documentElement.lang"), "en")
            self.assertEqual(await shown.value("[...document.querySelectorAll('[tabindex]')].filter((it) => it.tabIndex > 0).length"), 0)

    @full
    async def test_a_wrong_token_is_told(self) -> None:
        async with front() as running, page(running.url) as shown:
            await shown.value("document.getElementById('token').value = 'ann.x'; document.querySelector('#enter button').click()")
            await shown.until("document.getElementById('refused').textContent.includes('known')", 5)

    @unittest.skipUnless("CONSOLE_PICTURE" in os.environ, "no picture was asked for")
    async def test_a_picture(self) -> None:
        """A bench with three seats, and a step that revokes three uses."""
        names = ["ann", "bob", "u2", "u3", "u4", "u5"]
        async with front("--rate", "1000", users=6, policy=DOOR.replace("int 0..9 = 1;\nattr o taken", "int 0..9 = 3;\nattr o taken")) as running:
            async with page(running.url, 1000, 700) as shown:
                await sign_in(shown, running, "root")
                for name in names[:4]:
                    await running.post(name, "/try", right="sit", object="hall")
                await running.post("u4", "/try", right="enter", object="bench")
                await running.post("u5", "/try", right="enter", object="paper")
                await running.post("u5", "/end", session=6)
                await running.post("ann", "/try", right="sit", object="bench")
                await running.post("root", "/admin/set", side="o", name="hall", attribute="seats", value=0)
                await shown.until("document.querySelectorAll('#chart .cascade').length > 0", 5)
                await asyncio.sleep(1.5)
                await shown.value("scrollTo(0, 0)")
                await shown.picture(pathlib.Path(os.environ["CONSOLE_PICTURE"]))


if __name__ == "__main__":
    unittest.main()
