"""Every route: good, bad, foreign, oversized, malformed and repeated requests."""
import asyncio
import json
import re
import signal
import time
import unittest
from typing import Any, NamedTuple

from front.answers import REFUSED
from front.tests.support import TOP, Front, Person, Told, front, person, full

LONG = b'{"right":"enter","object":"' + b"a" * 5000 + b'"}'
DEEP = b'{"right":' + b"[" * 2000 + b"]" * 2000 + b"}"


ENTER = {"right": "enter", "object": "hall"}
NO_INTEGER = "and numbers are integers here, without a point or an exponent"
# All that the policy declares.
ALL = ["s.cleared", "o.seats", "o.taken"]
# A policy with a fault, and what is said of it.
NO_LABEL = "right enter {\n  on a\n}\n"
FAULT = {
    "text": "ucon: policy: unexpected at 21\npolicy:3:1\n  }\n  ^\n"
    "hint: a label is missing behind `a`: `on a LABEL: ..;`:\npolicy:2:7\n    on a\n        ^",
    "line": 3, "column": 1,
}
# A good policy with a line that ends it, and what is said of that.
DIVIDED = "right enter {}\n%%\n"
DIVIDER = {
    "text": "policy:2:1: the line `%%` is no part of a policy: it divides a document; leave it out, with all below it", "line": 2, "column": 1,
}
KEYED = {"Idempotency-Key": "amendment"}
WOULD_DO = [
    "loses its values: s.cleared", "loses its values: o.seats", "loses its values: o.taken",
    "revokes: 1 [ann enter hall] by no_right", "revokes: 5 [bob enter hall] by no_right",
]


class Row(NamedTuple):
    """A request and what comes back: the status, and members of the body."""

    who: str | None
    method: str
    path: str
    body: Any
    status: int
    says: dict[str, Any] = {}
    headers: dict[str, str] = {}


# The rows of a table are one conversation with a fresh front end, in order. Ann's subject is `ann`, and three objects are there.
TABLE = [
    # ---- whoever isn't let in
    Row(None, "GET", "/healthz", None, 200, {"ready": True}),
    Row(None, "GET", "/", None, 200),
    Row(None, "POST", "/try", ENTER, 401, {"error": "no such credentials"}),
    Row(None, "GET", "/metrics", None, 401),
    Row(None, "GET", "/events", None, 401),
    Row(None, "GET", "/nowhere", None, 401),
    Row("ann", "GET", "/nowhere", None, 404),
    Row("ann", "GET", "/try", None, 405),
    # ---- good ones
    Row("ann", "POST", "/try", ENTER, 200,
        {"outcome": "permitted", "session": 1, "state": "accessing", "accessing": True, "label": None, "revoked": []}),
    Row("ann", "GET", "/sessions/1", None, 200, {"session": 1, "right": "enter", "object": "hall", "state": "accessing", "accessing": True}),
    Row("ann", "GET", "/using", None, 200, {"using": [{"session": 1, "right": "enter", "object": "hall", "state": "accessing"}]}),
    Row("ann", "POST", "/beat", {"session": 1}, 200, {"outcome": "ok", "session": 1, "accessing": True}),
    Row("ann", "POST", "/try", {"right": "sign", "object": "paper"}, 202,
        {"outcome": "waiting", "session": 2, "state": "requesting", "accessing": False, "label": "signed"}),
    Row("ann", "POST", "/again", {"session": 2}, 202, {"outcome": "waiting", "session": 2, "accessing": False}),
    Row("ann", "POST", "/act", {"action": "sign", "object": "paper"}, 200, {"outcome": "ok", "revoked": []}),
    Row("ann", "POST", "/again", {"session": 2}, 200, {"outcome": "permitted", "session": 2, "accessing": True}),
    Row("ann", "POST", "/end", {"session": 2}, 200, {"outcome": "ended", "session": 2, "state": "ended", "accessing": False}),
    Row("ann", "GET", "/sessions/2", None, 200, {"state": "ended", "accessing": False}),
    Row("ann", "GET", "/me", None, 200, {"user": "ann", "role": "user", "subject": "ann", "attributes": {"cleared": "1"}}),
    Row("ann", "GET", "/explain?right=enter&object=hall", None, 200),
    # ---- one reply permits and revokes: the state is the one behind the whole step
    Row("ann", "POST", "/try", {"right": "shut", "object": "hall"}, 403,
        {"outcome": "permitted", "session": 3, "state": "revoked", "accessing": False, "label": "never",
         "revoked": [{"right": "shut", "object": "hall", "session": 3, "label": "never"}]}),
    # ---- refusals of the monitor
    Row("ann", "POST", "/try", {"right": "fly", "object": "hall"}, 404, {"error": "no right"}),
    Row("ann", "POST", "/try", {"right": "enter", "object": "moon"}, 404, {"error": "no object"}),
    Row("ann", "POST", "/act", {"action": "dance", "object": "hall"}, 404, {"error": "no act"}),
    Row("ann", "POST", "/end", {"session": 2}, 409, {"error": "not accessing"}),
    Row("ann", "POST", "/beat", {"session": 3}, 409, {"error": "not accessing"}),
    Row("ann", "POST", "/again", {"session": 1}, 409, {"error": "not requesting"}),
    Row("ann", "POST", "/end", {"session": 99}, 404, {"error": "no session"}),
    Row("ann", "GET", "/sessions/99", None, 404, {"error": "no session"}),
    # ---- foreign ones: as if the session weren't there
    Row("bob", "GET", "/sessions/1", None, 404, {"error": "no session"}),
    Row("bob", "POST", "/beat", {"session": 1}, 404, {"error": "no session"}),
    Row("bob", "POST", "/end", {"session": 1}, 404, {"error": "no session"}),
    Row("bob", "POST", "/again", {"session": 1}, 404, {"error": "no session"}),
    Row("bob", "GET", "/using", None, 200, {"using": []}),
    # ---- a subject is taken from nothing that is sent
    Row("bob", "POST", "/try", {"right": "enter", "object": "hall", "subject": "ann"}, 400),
    Row("bob", "POST", "/act", {"action": "sign", "object": "paper", "subject": "ann"}, 400),
    Row("bob", "GET", "/using?subject=ann", None, 400),
    Row("bob", "GET", "/explain?right=enter&object=hall&subject=ann", None, 400),
    Row("bob", "GET", "/using", None, 200, {"using": []}, {"X-Subject": "ann", "X-Forwarded-User": "ann"}),
    # ---- malformed ones
    Row("ann", "POST", "/try", b"", 400, {"error": "the body is no JSON: fault in line 1, column 1"}),
    Row("ann", "POST", "/try", b"{", 400, {"error": "the body is no JSON: fault in line 1, column 2"}),
    Row("ann", "POST", "/try", b"[]", 400, {"error": "the body is JSON, but no object"}),
    Row("ann", "POST", "/try", b"\xff\xfe", 400, {"error": "the body is no UTF-8 at byte 0"}),
    Row("ann", "POST", "/try", DEEP[:4000], 400),
    Row("ann", "POST", "/try", b'{"right":"enter","right":"enter","object":"hall"}', 400, {"error": "the body has the member `right` twice"}),
    Row("ann", "POST", "/try", {"right": "enter"}, 400),
    Row("ann", "POST", "/try", {"right": "enter", "object": 7}, 400),
    Row("ann", "POST", "/try", {"right": "Enter", "object": "hall"}, 400),
    Row("ann", "POST", "/try", {"right": "enter hall\n0 tick", "object": "hall"}, 400),
    Row("ann", "POST", "/try", {"right": "enter", "object": "a" * 33}, 400),
    Row("ann", "POST", "/end", {"session": "1"}, 400),
    Row("ann", "POST", "/end", {"session": 1.0}, 400, {"error": f"the body has `1.0`, {NO_INTEGER}"}),
    Row("ann", "POST", "/end", {"session": True}, 400),
    Row("ann", "POST", "/end", {"session": -1}, 400),
    Row("ann", "POST", "/end", {"session": 2**32}, 400),
    Row("ann", "POST", "/end", b'{"session":NaN}', 400, {"error": f"the body has `NaN`, {NO_INTEGER}"}),
    Row("ann", "POST", "/end", b'{"session":1e400}', 400, {"error": f"the body has `1e400`, {NO_INTEGER}"}),
    Row("ann", "POST", "/end", b'{"session":0.%s}' % (b"1" * 60), 400, {"error": f"the body has `0.{'1' * 38} ..`, {NO_INTEGER}"}),
    Row("ann", "POST", "/end", b'{"session":%s}' % (b"1" * 4060), 400, {"error": "session is no number from 0 to 4294967295"}),
    Row("ann", "GET", "/sessions/one", None, 404),
    Row("ann", "GET", "/sessions/-1", None, 404),
    Row("ann", "GET", "/sessions/99999999999999", None, 404),
    Row("ann", "GET", "/explain?right=enter", None, 400),
    Row("ann", "GET", "/explain?right=enter&object=hall%0a0%20tick%209", None, 400),
    Row("ann", "GET", "/events", None, 400, {"error": "Last-Event-ID is no place"}, {"Last-Event-ID": "x"}),
    Row("ann", "GET", "/events?from=x", None, 400, {"error": "from is no place"}),
    Row("ann", "GET", "/events?from=99999", None, 409, {"error": "from is beyond the journal's end", "behind": 99999}),
    Row("root", "GET", "/events", None, 409, {"error": "Last-Event-ID is beyond the journal's end"}, {"Last-Event-ID": "9999999999999999999"}),
    Row("ann", "POST", "/try", ENTER, 400, {}, {"Idempotency-Key": "a b"}),
    Row("ann", "POST", "/try", b"right=enter&object=hall", 415, {}, {"Content-Type": "application/x-www-form-urlencoded"}),
    # ---- oversized ones
    Row("ann", "POST", "/try", LONG, 413),
    Row("root", "POST", "/admin/object", b'{"name":"' + b"a" * 5000 + b'"}', 413),
    Row("root", "POST", "/admin/amend", b'{"policy":"' + b" " * 250_000 + b'"}', 413),
    # ---- repeated ones
    Row("ann", "POST", "/try", ENTER, 200, {"session": 4}, {"Idempotency-Key": "k1"}),
    Row("ann", "POST", "/try", ENTER, 200, {"session": 4}, {"Idempotency-Key": "k1"}),
    Row("ann", "POST", "/try", {"right": "enter", "object": "bench"}, 422, {}, {"Idempotency-Key": "k1"}),
    Row("ann", "POST", "/end", {"session": 4}, 422, {}, {"Idempotency-Key": "k1"}),
    Row("bob", "POST", "/try", ENTER, 200, {"session": 5}, {"Idempotency-Key": "k1"}),
    Row("ann", "POST", "/end", {"session": 4}, 200, {"state": "ended"}, {"Idempotency-Key": "k2"}),
    Row("ann", "POST", "/end", {"session": 4}, 200, {"state": "ended"}, {"Idempotency-Key": "k2"}),
    # ---- roles
    Row("ann", "POST", "/admin/object", {"name": "moon"}, 403),
    Row("ann", "GET", "/admin/state", None, 403),
    Row("ann", "GET", "/admin/nowhere", None, 403),
    Row("ann", "GET", "/metrics", None, 403),
    Row("meter", "GET", "/metrics", None, 200),
    Row("meter", "POST", "/try", ENTER, 403),
    Row("meter", "GET", "/events", None, 403),
    # An administrator asks nothing that a user asks, but for these two, and no subject is made of it.
    Row("root", "POST", "/try", ENTER, 403, {"error": "this is for users"}),
    Row("root", "POST", "/end", {"session": 1}, 403, {"error": "this is for users"}),
    Row("root", "GET", "/using", None, 403, {"error": "this is for users"}),
    Row("root", "GET", "/sessions/1", None, 403, {"error": "this is for users"}),
    Row("root", "GET", "/explain?right=enter&object=hall", None, 403, {"error": "this is for users"}),
    Row("root", "GET", "/me", None, 200, {"user": "root", "role": "admin"}),
    Row("root", "POST", "/admin/subject", {"name": "root"}, 200, {"outcome": "ok"}),
    Row("root", "POST", "/admin/subject", {"name": "ann"}, 409, {"error": "already there"}),
    # ---- the administrator
    Row("root", "POST", "/admin/subject", {"name": "eve"}, 200, {"outcome": "ok"}),
    Row("root", "POST", "/admin/subject", {"name": "eve"}, 409, {"error": "already there"}),
    Row("root", "POST", "/admin/object", {"name": "moon"}, 200),
    Row("root", "POST", "/admin/set", {"side": "s", "name": "eve", "attribute": "cleared", "value": 0}, 200),
    Row("root", "POST", "/admin/set", {"side": "s", "name": "eve", "attribute": "cleared", "value": 7}, 422, {"error": "bad value"}),
    Row("root", "POST", "/admin/set", {"side": "s", "name": "eve", "attribute": "cleared", "value": "x\n0 tick 9"}, 400),
    Row("root", "POST", "/admin/set", {"side": "s", "name": "eve", "attribute": "size", "value": ["b", "a"]}, 404, {"error": "no attribute"}),
    Row("root", "POST", "/admin/set", {"side": "x", "name": "eve", "attribute": "cleared", "value": 0}, 400),
    Row("root", "POST", "/admin/set", {"side": "s", "name": "eve", "attribute": "cleared", "value": True}, 400),
    Row("root", "POST", "/admin/set", {"side": "s", "name": "eve", "attribute": "cleared", "value": 10**16}, 400),
    Row("root", "POST", "/admin/env", {"variable": "hour", "value": 9}, 404, {"error": "no variable"}),
    Row("root", "POST", "/admin/tick", {"tick": 5}, 200),
    Row("root", "POST", "/admin/tick", {"tick": 4}, 409, {"error": "tick back"}),
    Row("root", "POST", "/admin/act", {"subject": "eve", "action": "sign", "object": "paper"}, 200),
    Row("root", "GET", "/admin/using", None, 200),
    Row("root", "GET", "/admin/using?object=moon", None, 200, {"using": []}),
    Row("root", "GET", "/admin/using?colour=red", None, 400),
    Row("root", "GET", "/admin/explain?subject=ann&right=enter&object=hall", None, 200),
    Row("root", "GET", "/admin/steps?behind=0", None, 200),
    Row("root", "GET", "/admin/steps?behind=x", None, 400),
    Row("root", "GET", "/admin/users", None, 200),
    Row("root", "GET", "/admin/policy", None, 200),
    Row("root", "POST", "/admin/point", {}, 200),
    Row("root", "POST", "/admin/point", {"now": True}, 400),
    # A fault is told as a check tells it, before what would be lost; and neither is kept under a key.
    Row("root", "POST", "/admin/amend", {"policy": NO_LABEL, "drop": ALL}, 400, {"error": "the policy has a fault", "fault": FAULT}, KEYED),
    Row("root", "POST", "/admin/amend", {"policy": NO_LABEL}, 400, {"error": "the policy has a fault", "fault": FAULT}),
    Row("root", "POST", "/admin/amend", {"policy": "right enter {}"}, 409, {"error": "values would be lost", "drop": ALL}, KEYED),
    # `drop` names what is declared, and nothing else.
    Row("root", "POST", "/admin/amend", {"policy": "right sit {}", "drop": ALL + ["s.ghost", "cleared"]}, 400,
        {"error": "drop names what the policy in force doesn't declare", "unknown": ["cleared", "s.ghost"]}),
    Row("root", "POST", "/admin/amend", {"policy": "right sit {}", "drop": [*ALL, 5]}, 400, {"error": "drop is a list of texts, as `s.cleared`"}),
    Row("root", "POST", "/admin/amend", {"policy": "right sit {}", "drop": "s.cleared"}, 400),
    Row("root", "POST", "/admin/policy/check", {"policy": NO_LABEL}, 200, {"accepted": False, "fault": FAULT}),
    Row("root", "POST", "/admin/policy/check", {"policy": "right enter {\n  on a\n}\n"}, 200, {"accepted": False}),
    Row("root", "POST", "/admin/policy/check", {"policy": "right enter {}"}, 200, {"accepted": True}),
    Row("root", "POST", "/admin/policy/dry-run", {"policy": "right sit {}"}, 200, {"would_do": WOULD_DO}),
    # A line `%%` is refused alike by all three, with or without something below it.
    Row("root", "POST", "/admin/policy/check", {"policy": DIVIDED}, 200, {"accepted": False, "fault": DIVIDER}),
    Row("root", "POST", "/admin/policy/check", {"policy": DIVIDED + "client 0\ntick 5\n"}, 200, {"accepted": False, "fault": DIVIDER}),
    Row("root", "POST", "/admin/policy/dry-run", {"policy": DIVIDED[:-1]}, 200, {"would_do": [], "refused": DIVIDER}),
    Row("root", "POST", "/admin/amend", {"policy": DIVIDED, "drop": ALL}, 400, {"error": "the policy has a fault", "fault": DIVIDER}),
    # Without its right each use is revoked: ann's and bob's.
    Row("root", "POST", "/admin/amend", {"policy": "right sit {} # none may enter\n", "drop": ALL}, 200, {"outcome": "ok"}, KEYED),
    Row("root", "POST", "/admin/amend", {"policy": "right sit {} # none may enter\n", "drop": ALL}, 200, {"outcome": "ok"}, KEYED),
    Row("root", "POST", "/admin/amend", {"policy": "right sit {} # none may enter\n"}, 422, {}, KEYED),
    Row("root", "POST", "/admin/amend", {"policy": "right sit {}", "drop": ["s.cleared"]}, 400, {"unknown": ["s.cleared"]}),
    Row("ann", "GET", "/using", None, 200, {"using": []}),
    Row("ann", "POST", "/try", {"right": "sit", "object": "bench"}, 200, {"accessing": True}),
]


def seen(told: Told) -> tuple[int, str, dict[str, str]]:
    """All that whoever asked can see but the date."""
    return told.status, str(told.body), {name: value for name, value in told.headers.items() if name != "Date"}


async def with_headers(running: Front, path: str, raw: bytes, headers: list[tuple[str, str]]) -> tuple[int, Any]:
    """What ann is answered to a request with these headers, of which one may come again."""
    host, port = running.url.removeprefix("http://").split(":")
    reader, writer = await asyncio.open_connection(host, int(port))
    own = [("Host", host), ("Authorization", f"Bearer {running.people['ann'].token}"), ("Content-Type", "application/json")]
    lines = [f"{name}: {value}" for name, value in [*own, ("Content-Length", str(len(raw))), ("Connection", "close"), *headers]]
    writer.write("\r\n".join([f"POST {path} HTTP/1.1", *lines, "", ""]).encode() + raw)
    head, _, body = (await asyncio.wait_for(reader.read(), 10)).partition(b"\r\n\r\n")
    writer.close()
    return int(head.split()[1]), json.loads(body)


class Routes(unittest.IsolatedAsyncioTestCase):
    async def test_each_row_is_answered_so(self) -> None:
        async with front("--rate", "1000") as running:
            for number, row in enumerate(TABLE):
                with self.subTest(number=number, who=row.who, path=row.path):
                    body, raw = (None, row.body) if isinstance(row.body, bytes) else (row.body, None)
                    told = await running.ask(row.who, row.method, row.path, body, raw, **row.headers)
                    self.assertEqual(told.status, row.status, str(told.body)[:300])
                    if row.status == 405:
                        self.assertEqual(told.headers["Allow"], "POST")
                    for name, value in row.says.items():
                        self.assertEqual(told.body.get(name), value, told.body)

    async def test_anothers_session_is_as_one_that_isnt_there(self) -> None:
        """By every route: status, body and headers are the same, whatever state the other's session is in."""
        async with front("--rate", "1000") as running:
            for right, thing in (("enter", "hall"), ("sign", "paper"), ("shut", "hall"), ("enter", "bench")):
                await running.post("ann", "/try", right=right, object=thing)
            await running.post("ann", "/end", session=4)
            nobodys = 77
            for foreign in (1, 2, 3, 4):
                for word in ("again", "beat", "end"):
                    said = [await running.post("bob", f"/{word}", session=it) for it in (foreign, nobodys)]
                    self.assertEqual(seen(said[0]), seen(said[1]))
                said = [await running.get("bob", f"/sessions/{it}") for it in (foreign, nobodys)]
                self.assertEqual(seen(said[0]), seen(said[1]))
            for path in ("/using", "/me", "/explain?right=enter&object=hall"):
                self.assertNotIn("ann", str((await running.get("bob", path)).body))
            self.assertEqual((await running.get("ann", "/sessions/1")).body["state"], "accessing")
            self.assertEqual((await running.get("ann", "/sessions/2")).body["state"], "requesting")

    @full
    async def test_the_tick_is_moved_by_the_clock(self) -> None:
        async with front("--tick-seconds", "1") as running:
            await asyncio.sleep(3)
            ticks = [it["command"] for it in await running.log() if it["command"].startswith("tick ")]
            self.assertGreater(len(ticks), 1)
            self.assertLess(abs(time.time() - int(ticks[-1].split()[1])), 60)

    async def test_the_access_log_has_one_line_for_each_request(self) -> None:
        async with front() as running:
            await running.get("ann", "/using")
            await running.get("ann", "/sessions/1%0a2%22?x=secret")
            await running.ask(Person("x", "ann.secret"), "GET", "/using")
            await asyncio.sleep(1)
            lines = [it for it in running.said if '"' in it]
            self.assertEqual([it.split(" ", 2)[2].split('"')[0] for it in lines[-3:]], ["127.0.0.1 ann ", "127.0.0.1 ann ", "127.0.0.1 - "])
            self.assertNotIn("secret", "\n".join(lines))

    def test_the_page_has_each_status(self) -> None:
        """Of these requests, and of refusals of the monitor."""
        page = (TOP / "docs" / "front.md").read_text()
        rows = re.findall(r"^\| (\d{3}(?:, \d{3})*) \|", page, re.MULTILINE)
        told = {int(it) for row in rows for it in row.split(", ")}
        self.assertEqual(({row.status for row in TABLE} | set(REFUSED.values())) - told, set())

    async def test_a_request_with_two_keys_is_refused(self) -> None:
        async with front() as running:
            for keys in (("a", "b"), ("a", "a"), ("a", "")):
                said = await with_headers(running, "/try", b'{"right":"enter","object":"hall"}', [("Idempotency-Key", it) for it in keys])
                self.assertEqual(said, (400, {"error": "a request has one Idempotency-Key"}))
            self.assertEqual((await running.get("ann", "/using")).body["using"], [])

    async def test_wrong_tokens_are_all_answered_alike(self) -> None:
        async with front() as running:
            ann = running.people["ann"].token
            bad = ["", "x", "ann", "ann.", ann[:-1], ann + "0", "bob." + ann.partition(".")[2], ann.upper(), "." + ann, "nobody." + "a" * 64]
            said = [await running.ask(Person("x", it), "GET", "/using") for it in bad]
            said += [await running.ask(person(it), "GET", "/using") for it in ("ann", "root", "nobody")]
            said.append(await running.ask(None, "GET", "/using", Authorization="Basic YW5uOmE="))
            self.assertEqual({(it.status, str(it.body)) for it in said}, {(401, "{'error': 'no such credentials'}")})

    @full
    async def test_a_user_that_is_taken_out_isnt_let_in(self) -> None:
        async with front() as running:
            await self._take_out(running, "bob")
            self.assertEqual((await running.get("bob", "/using")).status, 401)
            self.assertEqual((await running.get("ann", "/using")).status, 200)

    async def _take_out(self, running: Front, name: str) -> None:
        users = running.folder / "users"
        users.write_text("\n".join(it for it in users.read_text().split("\n\n") if f"[users.{name}]" not in it))
        assert running.process
        running.process.send_signal(signal.SIGHUP)
        for _ in range(100):
            if any("users are let in" in it for it in running.said):
                return
            await asyncio.sleep(0.05)
        self.fail("the users weren't read again")

    @full
    async def test_requests_beyond_the_rate_are_refused(self) -> None:
        async with front("--rate", "2") as running:
            said = [(await running.get("ann", "/sessions/1")).status for _ in range(8)]
            self.assertEqual(said[:4], [404] * 4)
            self.assertIn(429, said)
            self.assertEqual((await running.get("bob", "/sessions/1")).status, 404)

    @full
    async def test_pages_of_other_origins_are_let_in_only_where_asked(self) -> None:
        async with front("--cors", "https://a.example") as running:
            for origin, allowed in (("https://a.example", "https://a.example"), ("https://b.example", None), ("null", None)):
                told = await running.ask("ann", "GET", "/using", Origin=origin)
                self.assertEqual(told.headers.get("Access-Control-Allow-Origin"), allowed)
        async with front() as running:
            told = await running.ask("ann", "GET", "/using", Origin="https://a.example")
            self.assertNotIn("Access-Control-Allow-Origin", told.headers)


if __name__ == "__main__":
    unittest.main()
