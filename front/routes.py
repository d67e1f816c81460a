"""What a user may ask: each request is of the user's own subject, whatever it sends."""
from aiohttp import web

from front import protocol
from front.answers import NO_SESSION, Answer, explanation, refusal
from front.asking import Asking, Refused, body_of, json_response, number_of, query_of
from front.events import Streams
from front.sessions import State
from front.users import User


class UserRoutes:
    def __init__(self, asking: Asking, streams: Streams) -> None:
        self.asking, self.book, self.streams = asking, asking.book, streams

    def table(self) -> list[web.RouteDef]:
        return [
            web.post("/try", self.try_use), web.post("/act", self.act), web.post("/again", self.again), web.post("/beat", self.beat),
            web.post("/end", self.end), web.get("/sessions/{number}", self.session), web.get("/using", self.using),
            web.get("/explain", self.explain), web.get("/me", self.me), web.get("/events", self.events),
        ]

    def _user(self, request: web.Request) -> User:
        """Who asks. Only a user has a subject that tries."""
        user = self.asking.user(request)
        if user.role != "user":
            raise Refused(403, "this is for users")
        return user

    # ---- commands

    async def try_use(self, request: web.Request) -> web.StreamResponse:
        """`{"right", "object"}`: begins a use. 200 where it goes on, 202 where it waits, 403 where it doesn't."""
        user = self._user(request)
        said = await self._body(request, right=str, object=str)
        right, thing = protocol.name(said["right"], "right"), protocol.name(said["object"], "object")
        text = f"try {user.subject} {right} {thing}"
        return await self.asking.answered(request, text, lambda seconds: self.book.command(user, text, None, seconds))

    async def act(self, request: web.Request) -> web.StreamResponse:
        """`{"action", "object"}`: reports that the user's subject did an act."""
        user = self._user(request)
        said = await self._body(request, action=str, object=str)
        action, thing = protocol.name(said["action"], "action"), protocol.name(said["object"], "object")
        text = f"act {user.subject} {action} {thing}"
        return await self.asking.answered(request, text, lambda seconds: self.book.command(user, text, None, seconds))

    async def again(self, request: web.Request) -> web.StreamResponse:
        return await self._of_session(request, "again")

    async def beat(self, request: web.Request) -> web.StreamResponse:
        return await self._of_session(request, "beat")

    async def end(self, request: web.Request) -> web.StreamResponse:
        return await self._of_session(request, "end")

    async def _of_session(self, request: web.Request, word: str) -> web.StreamResponse:
        """`{"session"}`: a command of one of the user's own sessions."""
        user = self._user(request)
        said = await self._body(request, session=int)
        number = protocol.session(said["session"])
        text = f"{word} {number}"
        return await self.asking.answered(request, text, lambda seconds: self.book.command(user, text, number, seconds))

    async def _body(self, request: web.Request, **members: type) -> dict[str, object]:
        limits = self.asking.limits
        return await body_of(request, limits.body, limits.receive, dict(members))

    # ---- readings

    async def session(self, request: web.Request) -> web.StreamResponse:
        """One of the user's own sessions, as the monitor has it now."""
        user = self._user(request)
        query_of(request)
        number = number_of(request)
        if self.book.sessions.of(user.subject, number) is None:
            return json_response(refusal(NO_SESSION, 404))
        self.book.sessions.claim(number)
        place, row = await self.book.readings.session(number)
        if row is None or row.subject != user.subject:
            return json_response(refusal(NO_SESSION, 404))
        about = {"session": row.number, "right": row.right, "object": row.object, "state": row.state, "start": row.start}
        return json_response(Answer(200, {"place": place, **about, "accessing": row.state == State.accessing.name}))

    async def using(self, request: web.Request) -> web.StreamResponse:
        """The user's own uses that go on. Whoever asks for them claims them."""
        user = self._user(request)
        query_of(request)
        place, numbers = await self.book.readings.using("s", user.subject)
        self.book.sessions.claim_all(user.subject)
        rows = [self.book.sessions.of(user.subject, it) for it in numbers]
        return json_response(Answer(200, {"place": place, "using": [it.told() for it in rows if it]}))

    async def explain(self, request: web.Request) -> web.StreamResponse:
        """`?right=..&object=..`: why a try of the user's own subject would be decided as it would be now."""
        user = self._user(request)
        query = query_of(request, "right", "object")
        right, thing = protocol.name(query["right"], "right"), protocol.name(query["object"], "object")
        place, lines = await self.book.readings.explain(user.subject, right, thing)
        return json_response(Answer(200, {"place": place, "lines": explanation(lines, user.subject)}))

    async def me(self, request: web.Request) -> web.StreamResponse:
        """Who asks, and of a user its subject's attributes."""
        user = self.asking.user(request)
        query_of(request)
        body: dict[str, object] = {"user": user.name, "role": user.role}
        if user.role == "user":
            body |= {"subject": user.subject, "attributes": await self.book.attributes(user.subject)}
        return json_response(Answer(200, body))

    async def events(self, request: web.Request) -> web.StreamResponse:
        """Steps as server-sent events, from the place behind `Last-Event-ID`, or `?from=PLACE`, on; else from now."""
        user = self.asking.user(request)
        if user.role not in ("user", "admin"):
            raise Refused(403, "this is for users and administrators")
        if not self.streams.has_room(user):
            raise Refused(429, "this user has too many streams")
        behind = self._behind(request)
        response = web.StreamResponse()
        self.book.sessions.claim_all(user.subject if user.role == "user" else "")
        await self.streams.serve(request, response, user, behind)
        return response

    def _behind(self, request: web.Request) -> int:
        """The last place that whoever asks has heard of. Where the journal has none such, it lacks steps that were told: refused, so that who
        asks knows that what it heard of may not be."""
        given, name = request.headers.get("Last-Event-ID"), "Last-Event-ID"
        if not given:
            given, name = request.query.get("from"), "from"
        steps = self.book.history.steps
        if given is None:
            return steps
        if not given.isascii() or not given.isdecimal() or len(given) > 19:
            raise Refused(400, f"{name} is no place")
        if int(given) > steps:
            raise Refused(409, f"{name} is beyond the journal's end", behind=int(given), place=steps)
        return int(given)
