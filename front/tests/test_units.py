"""The parts that need no monitor."""
import asyncio
import pathlib
import signal
import tempfile
import unittest
import unittest.mock
from typing import Any

from front import policies, protocol
from front.answers import explanation, of_reply, own_row
from front.asking import Refused
from front.config import Limits, config_of
from front.events import of_own
from front.history import History, Step
from front.limits import Rates
from front.monitor import Failed, Monitor, Waiting, kill
from front.protocol import Line, NoReply, Reply, Unspeakable, explained, reply_of
from front.repeats import OtherRequest, Repeats
from front.sessions import Sessions, State
from front.telling import text_with_room
from front.users import BadUsers, add_user, read_users
from launcher.told import Told


def step(place: int, client: int, command: str, reply: str) -> Step:
    return Step(client, command, Reply(client, place, reply))


class Lines(unittest.TestCase):
    def test_replies_are_read(self) -> None:
        for raw, client, place, text, outcome in (
            (b"1 5 permitted 1 revoked 1 room\n", 1, 5, "permitted 1 revoked 1 room", "permitted"),
            (b"0 3 ok\n", 0, 3, "ok", "ok"), (b"0 3 no right\n", 0, 3, "no right", ""), (b"7 - no memory\n", 7, None, "no memory", ""),
            (b"- - bad word\n", None, None, "bad word", ""), (b"- 12 using 3 4\n", None, 12, "using 3 4", ""),
        ):
            reply = reply_of(raw)
            self.assertEqual((reply.client, reply.place, reply.text, reply.outcome), (client, place, text, outcome))
        for raw in (b"", b"\n", b"x 1 ok\n", b"1 ok\n", b"1 2 \xff\n"):
            self.assertRaises(NoReply, reply_of, raw)

    def test_an_explanation_is_cut_between_its_lines_alone(self) -> None:
        lines = ['pre note a false', '  read s.note "x; verdict permit; y"', "verdict deny note"]
        self.assertEqual(explained("; ".join(lines)), lines)

    def test_a_value_that_names_a_revocation_is_none(self) -> None:
        self.assertEqual(reply_of(b'0 3 value "revoked 1 x"\n').revocations, ())
        self.assertEqual([it.session for it in reply_of(b"0 4 ok revoked 2 a revoked 1 b\n").revocations], [2, 1])

    def test_values_have_one_spelling(self) -> None:
        for value, spelled in ((5, "5"), (-5, "-5"), ("a b", '"a b"'), (["b", "a", "b"], '{"a","b"}'), ([], "{}")):
            self.assertEqual(protocol.spelled(value), spelled)
        for bad in (True, None, 1.5, 10**16, "a\nb", 'a"b', "ä", "x" * 65, ["a", 1], [["a"]], ["x"] * 65):
            self.assertRaises(Unspeakable, protocol.spelled, bad)

    def test_names_are_names(self) -> None:
        self.assertEqual(protocol.name("a_1", "name"), "a_1")
        for bad in ("", "1a", "A", "a b", "a\n", "a" * 33, 7, None):
            self.assertRaises(Unspeakable, protocol.name, bad, "name")


class Answers(unittest.TestCase):
    def test_the_state_is_the_one_behind_the_whole_step(self) -> None:
        sessions = Sessions()
        for it in (step(1, 1, "try ann sit hall", "permitted 1"), step(2, 2, "try bob sit hall", "permitted 2 revoked 1 room revoked 2 room")):
            sessions.take(it)
        reply = Reply(2, 2, "permitted 2 revoked 1 room revoked 2 room")
        answer = of_reply(reply, None, lambda it: own_row(sessions.get(it), "bob"))
        self.assertEqual((answer.status, answer.body["accessing"], answer.body["state"], answer.body["label"]), (403, False, "revoked", "room"))
        self.assertEqual(answer.body["revoked"], [{"right": "sit", "object": "hall", "session": 2, "label": "room"}])
        self.assertIsNone(answer.permits)
        self.assertEqual(sessions.using(), [])

    def test_who_reads_the_status_alone_lets_nobody_in(self) -> None:
        rows = ("permitted 1", 200), ("denied 1 room", 403), ("waiting 1 sign", 202), ("permitted 1 revoked 1 room", 403), ("no right", 404)
        for text, status in rows:
            self.assertEqual(of_reply(Reply(1, 1, text), None, lambda _: None).status, status)

    def test_another_subjects_acts_arent_told(self) -> None:
        lines = ["pre a b true", "  act guard check door 5", "  act ann sign paper never", "verdict permit"]
        self.assertEqual(explanation(lines, "ann"), ["pre a b true", "  act of another subject", "  act ann sign paper never", "verdict permit"])
        self.assertEqual(explanation(lines, None), lines)

    def test_a_user_sees_its_own_of_a_cascade(self) -> None:
        sessions = Sessions()
        for it in (step(1, 1, "try ann sit hall", "permitted 1"), step(2, 2, "try bob sit hall", "permitted 2 revoked 1 room")):
            sessions.take(it)
        seen: Any = of_own(step(2, 2, "try bob sit hall", "permitted 2 revoked 1 room"), sessions, "ann")
        self.assertEqual((seen["sessions"][0]["session"], seen["sessions"][0]["label"]), (1, "room"))
        self.assertNotIn("bob", str(seen))
        self.assertIsNone(of_own(step(3, 0, "tick 5", "ok"), sessions, "ann"))


class Faults(unittest.IsolatedAsyncioTestCase):
    async def test_a_faults_place_is_the_first_one_of_its_text(self) -> None:
        """However the line goes on that has the place, and whatever place a hint names behind it."""
        for text, line, column, said in (
            ("right enter {", 1, 14, "policy:1:14: the policy ends here"), ("right enter {\n  on a\n}\n", 3, 1, "policy:3:1"),
            ("right sit {\n}\nright enter { pre b y: s.bage = 1; }\n", 3, 24, "policy:3:24"),
            ("attr s age : int 0..9 = 1;\nright sit {\n  pre a y: s.bage = 1;\n}\n", 3, 12, "policy:3:12: item 3"),
            ("attr s a : int 0..1 = 5;\n", 1, 8, "policy:1:8: item 1"),
        ):
            body: Any = (await policies.check(policies.bytes_of(text))).body
            fault = body["fault"]
            self.assertEqual((fault.get("line"), fault.get("column"), fault["text"].split("\n")[1]), (line, column, said))


    async def test_a_check_that_cant_be_made_tells_nothing_of_the_policy(self) -> None:
        for ended, says in (((125, "", "ucon: no program\n"), "ucon: no program"), ((137, "", ""), "status 137")):
            with unittest.mock.patch("front.policies.tried", return_value=ended), self.assertRaises(Refused) as refused:
                await policies.check(b"right enter {}")
            answer = refused.exception.answer
            self.assertEqual((answer.status, answer.body["error"]), (503, f"the policy can't be tried now: {says}"))


class Owners(unittest.TestCase):
    def test_a_session_is_its_subjects(self) -> None:
        sessions = Sessions()
        sessions.take(step(1, 5, "try ann sit hall", "waiting 1 sign"))
        self.assertEqual(sessions.using(), [])
        sessions.take(step(2, 5, "again 1", "permitted 1"))
        mine = sessions.of("ann", 1)
        assert mine
        self.assertEqual((mine.client, mine.state), (5, State.accessing))
        self.assertIsNone(sessions.of("bob", 1))
        self.assertIsNone(sessions.of("ann", 2))
        self.assertIsNone(sessions.of("ann", 0))
        sessions.take(step(3, 5, "end 1", "ended 1"))
        self.assertEqual((sessions.using_of("ann"), sessions.of("ann", 1) and mine.state), ([], State.accessing))

    def test_uses_that_nobody_claims_are_overdue(self) -> None:
        sessions = Sessions()
        for number, name in ((1, "ann"), (2, "bob"), (3, "ann")):
            sessions.take(step(number, 1, f"try {name} sit hall", f"permitted {number}"))
        sessions.put_up([1, 2, 3], 10.0)
        sessions.claim(1)
        self.assertEqual([it.number for it in sessions.overdue(9.0)], [])
        self.assertEqual([it.number for it in sessions.overdue(10.0)], [2, 3])
        sessions.claim_all("ann")
        self.assertEqual([it.number for it in sessions.overdue(10.0)], [2])


class Recovery(unittest.IsolatedAsyncioTestCase):
    """Lines without a reply, and the steps that the journal has of them."""

    async def _matched(self, lines: list[tuple[int, str]], steps: list[Step]) -> tuple[list[str], list[str]]:
        again: list[str] = []
        monitor = object.__new__(Monitor)
        from collections import deque

        from front.monitor import Figures

        monitor.figures, monitor.telling, monitor.take, monitor.unheard = Figures(), None, lambda _: None, lambda _: None
        loop = asyncio.get_running_loop()
        waiting = [Waiting(Line(client, text), loop.create_future(), sent=1) for client, text in lines]
        monitor._sent, monitor._queued = deque(waiting), deque()
        monitor._send_again = lambda it: again.append(f"{it.line.client} {it.line.text}")  # type: ignore
        monitor._match(steps)
        return [it.reply.result().text if it.reply.done() else "" for it in waiting], again

    async def test_each_line_has_one_effect(self) -> None:
        lines = [(1, "try ann sit hall"), (2, "end 4"), (1, "try ann sit hall"), (3, "end 9")]
        steps = [step(7, 1, "try ann sit hall", "permitted 5"), step(8, 1, "try ann sit hall", "permitted 6")]
        replies, again = await self._matched(lines, steps)
        self.assertEqual(replies, ["permitted 5", "", "permitted 6", ""])
        self.assertEqual(again, ["2 end 4", "3 end 9"])

    async def test_a_step_is_of_no_line_before_the_one_that_was_matched(self) -> None:
        lines = [(0, "tick 5"), (1, "end 1"), (0, "tick 5")]
        replies, again = await self._matched(lines, [step(1, 1, "end 1", "ended 1"), step(2, 0, "tick 5", "ok")])
        self.assertEqual(replies, ["", "ended 1", "ok"])
        self.assertEqual(again, ["0 tick 5"])


class Ends(unittest.IsolatedAsyncioTestCase):
    async def _ended(self, *words: str) -> int:
        """With which status a monitor fails that doesn't begin."""
        pipe = asyncio.subprocess.PIPE
        monitor = object.__new__(Monitor)
        monitor.policy = b"right a {}\n"
        monitor._process = await asyncio.create_subprocess_exec(*words, stdin=pipe, stdout=pipe)
        with self.assertRaises(Failed) as failed:
            await monitor._ready(monitor._process)
        return failed.exception.status

    async def test_the_status_of_a_monitor_that_doesnt_begin_is_its_own(self) -> None:
        """Its output ends before it does, or with it, and nothing takes its status from whoever waits."""
        for words, status in ((("false",), 1), (("sh", "-c", "exit 10"), 10), (("sh", "-c", "exec >&-; sleep 0.05; exit 8"), 8), (("true",), 128)):
            self.assertEqual([await self._ended(*words) for _ in range(15)], [status] * 15)
        self.assertEqual(await self._ended("sh", "-c", "echo hello; exec sleep 60"), 128 + signal.SIGKILL)

    async def test_a_monitor_that_has_ended_is_killed_without_harm(self) -> None:
        for _ in range(15):
            process = await asyncio.create_subprocess_exec("sh", "-c", "exit 8", stdout=asyncio.subprocess.PIPE)
            assert process.stdout
            await process.stdout.read()
            kill(process)
            self.assertIn(await process.wait(), (8, -signal.SIGKILL))


class Repeated(unittest.IsolatedAsyncioTestCase):
    async def test_the_first_answer_is_given_again(self) -> None:
        now, made = [0.0], []
        repeats: Repeats[int] = Repeats(10.0, (KeyError,), lambda: now[0])

        async def make() -> int:
            made.append(1)
            await asyncio.sleep(0.01)
            return len(made)

        answers = await asyncio.gather(*(repeats.answer("ann", "k", "a", make)[0] for _ in range(5)))
        self.assertEqual((answers, len(made)), ([1] * 5, 1))
        self.assertRaises(OtherRequest, repeats.answer, "ann", "k", "b", make)
        self.assertEqual(await repeats.answer("bob", "k", "b", make)[0], 2)
        now[0] = 11.0
        self.assertEqual(await repeats.answer("ann", "k", "b", make)[0], 3)

    async def test_what_changed_nothing_is_forgotten(self) -> None:
        repeats: Repeats[int] = Repeats(10.0, (KeyError,))

        async def fail() -> int:
            raise KeyError

        async def lost() -> int:
            raise ValueError

        for key, make, left in (("a", fail, 0), ("b", lost, 1)):
            with self.assertRaises((KeyError, ValueError)):
                await repeats.answer("ann", key, "x", make)[0]
            await asyncio.sleep(0)
            self.assertEqual(len(repeats), left)


class Others(unittest.TestCase):
    def test_rates_flow(self) -> None:
        now = [0.0]
        rates = Rates(2.0, 4.0, lambda: now[0])
        self.assertEqual([rates.take("ann") for _ in range(5)], [True] * 4 + [False])
        self.assertTrue(rates.take("bob"))
        now[0] = 0.5
        self.assertEqual([rates.take("ann") for _ in range(2)], [True, False])

    def test_told_has_room_for_any_place(self) -> None:
        told = Told(7, 8, b"\0" * 32, b"")
        self.assertIn(b"\nplace 0000000000000000007\nrecords 8\n", text_with_room(told))

    def test_words_are_read(self) -> None:
        config = config_of(["--journal", "j", "--users", "u", "--listen", "[::1]:8081", "--tick-seconds", "60"])
        self.assertEqual((config.host, config.port, config.tick_seconds, config.limits.rate), ("::1", 8081, 60, 50.0))
        self.assertFalse(config_of(["--journal", "j", "--users", "u", "--socket", "s"]).has_port)
        self.assertEqual(Limits().body, 4096)

    def test_users_are_read_and_added(self) -> None:
        with tempfile.TemporaryDirectory() as folder:
            path = pathlib.Path(folder) / "users"
            for number in range(65):
                add_quietly(["--users", str(path), f"u{number}"])
            users = read_users(path)
            self.assertEqual((users.by_name["u0"].client, users.by_name["u62"].client, users.by_name["u63"].client), (1, 63, 1))
            self.assertEqual(path.stat().st_mode & 0o777, 0o600)
            self.assertRaises(BadUsers, add_user, ["--users", str(path), "u0"])
            for text in (
                "x = 1", "[users.A]\n", "[users.a]\nrole = 'king'\n", "[users.a]\ntoken_sha256 = 'x'\n", "[users.a]\nuid = -1\n",
                "[users.a]\ncolour = 1\n",
                "[users.a]\nuid = 1\n[users.b]\nuid = 1\n", "[users.a]\nsubject = 'A'\n", "users = 1", "[users", "[users.a]\nuid = true\n",
            ):
                path.write_text(text)
                self.assertRaises(BadUsers, read_users, path)
            path.unlink()
            self.assertRaises(BadUsers, read_users, path)


def add_quietly(words: list[str]) -> None:
    import contextlib
    import io

    with contextlib.redirect_stdout(io.StringIO()), contextlib.redirect_stderr(io.StringIO()):
        add_user(words)


class Steps(unittest.IsolatedAsyncioTestCase):
    async def test_steps_wait_and_come_in_order(self) -> None:
        history = History(pathlib.Path("/nowhere"))
        history.add(step(1, 0, "tick 1", "ok"))
        self.assertRaises(ValueError, history.add, step(3, 0, "tick 1", "ok"))
        self.assertFalse(await history.wait(1, 0.01))
        waiting = asyncio.create_task(history.wait(1, 5))
        await asyncio.sleep(0)
        history.add(step(2, 0, "tick 2", "ok"))
        self.assertTrue(await waiting)
        self.assertEqual([it.place for it in await history.read(0, 10)], [1, 2])
        self.assertEqual([it.place for it in await history.read(1, 1)], [2])
        self.assertEqual(await history.read(2, 10), [])


if __name__ == "__main__":
    unittest.main()
