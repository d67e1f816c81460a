"""What an administrator may ask: the commands of client 0, and readings of all that is there."""
import asyncio

from aiohttp import web

from front import policies, protocol
from front.answers import Answer, explanation, refusal
from front.asking import Asking, Handler, Members, Refused, body_of, json_response, query_of
from front.events import of_step
from launcher.amending import change_of, declared
from launcher.policy import one_line

# The commands of client 0 that are words and names alone: their members, in the order of the command.
PLAIN: dict[str, Members] = {
    "subject": {"name": str},
    "object": {"name": str},
    "act": {"subject": str, "action": str, "object": str},
}
VALUE = (int, str, list)
# The most steps that one reading of the history gives.
MOST_STEPS = 1000


class AdminRoutes:
    def __init__(self, asking: Asking) -> None:
        self.asking, self.book, self.limits = asking, asking.book, asking.limits
        self._journal = str(asking.book.config.journal)
        # Each check and each dry run is a process of its own.
        self._processes = asyncio.Semaphore(2)

    def table(self) -> list[web.RouteDef]:
        rows = [web.post(f"/admin/{word}", self._plain(word)) for word in PLAIN]
        return rows + [
            web.post("/admin/set", self.set), web.post("/admin/env", self.env), web.post("/admin/tick", self.tick),
            web.post("/admin/point", self.point), web.post("/admin/amend", self.amend),
            web.post("/admin/policy/check", self.check), web.post("/admin/policy/dry-run", self.dry_run),
            web.get("/admin/policy", self.policy), web.get("/admin/state", self.state), web.get("/admin/using", self.using),
            web.get("/admin/explain", self.explain), web.get("/admin/steps", self.steps), web.get("/admin/users", self.users),
        ]

    # ---- commands

    def _plain(self, word: str) -> Handler:
        async def handler(request: web.Request) -> web.StreamResponse:
            members = PLAIN[word]
            said = await body_of(request, self.limits.body, self.limits.receive, dict(members))
            return await self._administer(request, " ".join([word, *(protocol.name(said[it], it) for it in members)]))

        return handler

    async def set(self, request: web.Request) -> web.StreamResponse:
        """`{"side", "name", "attribute", "value"}`: writes an attribute. The side is `s` or `o`."""
        members: Members = {"side": str, "name": str, "attribute": str, "value": VALUE}
        said = await body_of(request, self.limits.body, self.limits.receive, members)
        if said["side"] not in ("s", "o"):
            raise Refused(400, "side is `s` or `o`")
        named = f"{protocol.name(said['name'], 'name')} {protocol.name(said['attribute'], 'attribute')}"
        return await self._administer(request, f"set {said['side']} {named} {protocol.spelled(said['value'])}")

    async def env(self, request: web.Request) -> web.StreamResponse:
        said = await body_of(request, self.limits.body, self.limits.receive, {"variable": str, "value": VALUE})
        return await self._administer(request, f"env {protocol.name(said['variable'], 'variable')} {protocol.spelled(said['value'])}")

    async def tick(self, request: web.Request) -> web.StreamResponse:
        said = await body_of(request, self.limits.body, self.limits.receive, {"tick": int})
        return await self._administer(request, f"tick {protocol.spelled(said['tick'])}")

    async def _administer(self, request: web.Request, text: str) -> web.StreamResponse:
        return await self.asking.answered(request, text, lambda seconds: self.book.administer(text, seconds))

    async def point(self, request: web.Request) -> web.StreamResponse:
        """Has a checkpoint written."""
        await body_of(request, self.limits.body, self.limits.receive, {})
        reply = await self.book.readings.point()
        return json_response(Answer(200, {"place": reply.place, "reply": reply.text}))

    # ---- policies

    async def amend(self, request: web.Request) -> web.StreamResponse:
        """`{"policy", "drop"}`: puts a policy in force that the program takes. What would lose its values has to be named in `drop`."""
        members: Members = {"policy": str, "drop": list}
        said = await body_of(request, self.limits.policy_body, self.limits.receive, members, frozenset(("drop",)))
        policy, drop = policies.bytes_of(said["policy"]), said.get("drop", [])
        if not all(isinstance(it, str) for it in drop):
            raise Refused(400, "drop is a list of texts, as `s.cleared`")
        text = f"amend {one_line(policy).decode()}"

        async def call(seconds: float) -> Answer:
            await self._hold_accepted(policy)
            await self._hold_dropped(policy, drop)
            return await self.book.administer(text, seconds)

        return await self.asking.answered(request, " ".join([text, *sorted(set(drop))]), call)

    async def _hold_accepted(self, policy: bytes) -> None:
        """The program takes the policy. Else refused, with the fault that a check says."""
        async with self._processes:
            said = (await policies.check(policy)).body
        if not said["accepted"]:
            raise Refused(400, "the policy has a fault", fault=said["fault"])

    async def _hold_dropped(self, policy: bytes, drop: list[str]) -> None:
        """What loses its values is named in `drop`, and nothing is named there that isn't declared."""
        now = declared((await self.book.readings.policy()).encode())
        if unknown := sorted({it for it in drop if it not in now}):
            raise Refused(400, "drop names what the policy in force doesn't declare", unknown=unknown)
        gone = change_of(now, declared(policy)).gone
        if missing := [it for it in gone if it not in drop]:
            raise Refused(409, "values would be lost", drop=missing)

    async def check(self, request: web.Request) -> web.StreamResponse:
        """`{"policy"}`: whether the program takes it, and else its first fault with the place."""
        return await self._tried(request, lambda policy: policies.check(policy))

    async def dry_run(self, request: web.Request) -> web.StreamResponse:
        """`{"policy"}`: what putting it in force would do, tried on a copy: who would be revoked, and what loses its values."""
        return await self._tried(request, lambda policy: policies.dry_run(policy, self._journal))

    async def _tried(self, request: web.Request, call: policies.Trial) -> web.StreamResponse:
        said = await body_of(request, self.limits.policy_body, self.limits.receive, {"policy": str})
        policy = policies.bytes_of(said["policy"])
        if self._processes.locked():
            return json_response(refusal("two policies are being tried already", 429))
        async with self._processes:
            return json_response(await call(policy))

    async def policy(self, request: web.Request) -> web.StreamResponse:
        query_of(request)
        return json_response(Answer(200, {"place": self.book.history.steps, "policy": await self.book.readings.policy()}))

    # ---- readings

    async def state(self, request: web.Request) -> web.StreamResponse:
        """Entities with their values, variables, acts and the tick, and the uses that go on and wait."""
        query_of(request)
        place, state = await self.book.readings.state()
        sessions = state.pop("sessions", [])
        going = [it for it in sessions if it["state"] in ("accessing", "requesting")] if isinstance(sessions, list) else []
        return json_response(Answer(200, {"place": place, **state, "sessions": going}))

    async def using(self, request: web.Request) -> web.StreamResponse:
        """All uses that go on; with `?object=NAME` or `?subject=NAME` those of one."""
        side, name = "", ""
        if request.query:
            side = "s" if "subject" in request.query else "o"
            (given,) = query_of(request, "subject" if side == "s" else "object").values()
            name = protocol.name(given, "name")
        place, numbers = await self.book.readings.using(side, name)
        sessions = [self.book.sessions.get(it) for it in numbers]
        rows = [{**it.told(), "subject": it.subject, "client": it.client} for it in sessions if it]
        return json_response(Answer(200, {"place": place, "using": rows}))

    async def explain(self, request: web.Request) -> web.StreamResponse:
        query = query_of(request, "subject", "right", "object")
        subject, right, thing = (protocol.name(query[it], it) for it in ("subject", "right", "object"))
        place, lines = await self.book.readings.explain(subject, right, thing)
        return json_response(Answer(200, {"place": place, "lines": explanation(lines, None)}))

    async def steps(self, request: web.Request) -> web.StreamResponse:
        """`?behind=PLACE`: the steps behind a place, at most a thousand."""
        behind = query_of(request, "behind")["behind"]
        if not behind.isascii() or not behind.isdecimal() or len(behind) > 19:
            raise Refused(400, "behind is no place")
        found = await self.book.history.read(int(behind), MOST_STEPS)
        return json_response(Answer(200, {"place": self.book.history.steps, "steps": [of_step(it, self.book.sessions) for it in found]}))

    async def users(self, request: web.Request) -> web.StreamResponse:
        """Who is let in, without tokens."""
        query_of(request)
        rows = [{"user": it.name, "subject": it.subject, "role": it.role, "client": it.client} for it in self.book.users.by_name.values()]
        return json_response(Answer(200, {"users": rows}))
