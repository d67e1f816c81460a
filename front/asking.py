"""What every route shares: reading a request's body, who asks, one answer for each repeated request, and how an answer is written."""
import asyncio
import json
from collections.abc import Awaitable, Callable
from typing import Any, NoReturn

from aiohttp import web

from front.answers import Answer, refusal
from front.book import Book
from front.monitor import NoAnswer, Unavailable
from front.protocol import Unspeakable
from front.readings import Pointless
from front.repeats import KEY, OtherRequest, Repeats
from front.users import User

Handler = Callable[[web.Request], Awaitable[web.StreamResponse]]
Body = dict[str, Any]
# The members of a body by name, each with the types that it may have.
Members = dict[str, type | tuple[type, ...]]

# How long a request under an Idempotency-Key goes on, though nobody waits for it, in seconds.
KEYED = 120.0
# How many characters are shown of what a body has.
SHOWN = 40
HEADERS = {"Cache-Control": "no-store", "X-Content-Type-Options": "nosniff"}


class Refused(Exception):
    """A request that isn't taken: its answer, with the members that say more."""

    def __init__(self, status: int, text: str, **more: object) -> None:
        super().__init__(text)
        self.answer = Answer(status, {**refusal(text, status).body, **more})


def json_response(answer: Answer, **headers: str) -> web.Response:
    body = json.dumps(answer.body, separators=(",", ":")).encode() + b"\n"
    return web.Response(status=answer.status, body=body, content_type="application/json", headers={**HEADERS, **headers})


# ---- bodies


async def body_of(request: web.Request, most: int, seconds: float, members: Members, also: frozenset[str] = frozenset()) -> Body:
    """The members of a request's JSON object: these and no others, each of its type. Those of `also` may be missing."""
    if request.content_type != "application/json":
        raise Refused(415, "the body has to be application/json")
    try:
        raw = await asyncio.wait_for(whole(request, most), seconds)
    except asyncio.TimeoutError:
        raise Refused(408, "the body didn't come in time") from None
    said = said_in(raw)
    for name in said:
        if name not in members:
            raise Refused(400, f"unknown member; there may be {', '.join(members) or 'none'}")
    for name, kind in members.items():
        if name not in said and name in also:
            continue
        if not isinstance(said.get(name), kind) or isinstance(said.get(name), bool):
            raise Refused(400, f"{name} is missing, or of another type")
    return said


async def whole(request: web.Request, most: int) -> bytes:
    parts, size = [], 0
    if (request.content_length or 0) > most:
        raise Refused(413, f"the body has more than {most} bytes")
    async for part in request.content.iter_any():
        size += len(part)
        if size > most:
            raise Refused(413, f"the body has more than {most} bytes")
        parts.append(part)
    return b"".join(parts)


def said_in(raw: bytes) -> Body:
    """The JSON object that a body is, whose members stand once each and whose numbers are integers."""
    try:
        said = json.loads(raw.decode("utf-8"), object_pairs_hook=each_once, parse_constant=no_number, parse_float=no_number)
    except json.JSONDecodeError as why:
        raise Refused(400, f"the body is no JSON: fault in line {why.lineno}, column {why.colno}") from None
    except UnicodeDecodeError as why:
        raise Refused(400, f"the body is no UTF-8 at byte {why.start}") from None
    except (ValueError, RecursionError):
        raise Refused(400, "the body has too many brackets in each other, or too long a number") from None
    if not isinstance(said, dict):
        raise Refused(400, "the body is JSON, but no object")
    return said


def each_once(pairs: list[tuple[str, Any]]) -> Body:
    found: Body = {}
    for name, value in pairs:
        if name in found:
            raise Refused(400, f"the body has the member {shown(name)} twice")
        found[name] = value
    return found


def no_number(text: str) -> NoReturn:
    raise Refused(400, f"the body has {shown(text)}, and numbers are integers here, without a point or an exponent")


def shown(text: str) -> str:
    """A text of a body, on one line, the longest ones cut."""
    said = ascii(text[:SHOWN])[1:-1]
    return f"`{said}{' ..' if len(text) > SHOWN else ''}`"


# ---- the query


def query_of(request: web.Request, *names: str) -> dict[str, str]:
    """These parts of the query, each once, and no others."""
    query = request.query
    if sorted(query.keys()) != sorted(names):
        raise Refused(400, f"the query has {' and '.join(names)}, each once" if names else "there is no query here")
    return dict(query)


def number_of(request: web.Request) -> int:
    """The session's number in the path."""
    text = request.match_info["number"]
    if not text.isascii() or not text.isdecimal() or len(text) > 10:
        raise Refused(404, "no session")
    return int(text)


# ---- routes


class Asking:
    """Makes routes of calls that answer."""

    def __init__(self, book: Book) -> None:
        self.book = book
        self.limits = book.config.limits
        self.repeats: Repeats[Answer] = Repeats(book.config.key_seconds, (Unavailable, Unspeakable, Refused, Pointless))

    def user(self, request: web.Request) -> User:
        user: User = request["user"]
        return user

    async def answered(self, request: web.Request, asked: str, make: Callable[[float], Awaitable[Answer]]) -> web.Response:
        """Answers by a call that is given how long it may wait. Under an Idempotency-Key only the first request calls."""
        keys = request.headers.getall("Idempotency-Key", [])
        if not keys:
            answer = await make(self.limits.answer)
            return self._told(request, answer)
        if len(keys) > 1:
            raise Refused(400, "a request has one Idempotency-Key")
        (key,) = keys
        if not KEY.fullmatch(key):
            raise Refused(400, "an Idempotency-Key has 1 to 200 printable characters, and no space")

        async def call() -> Answer:
            """Whoever asked may have gone by the time of the answer: a use that it permits has nobody until it is told."""
            answer = await make(KEYED)
            if answer.permits is not None:
                self.book.put_up([answer.permits])
            return answer

        try:
            answer_of, is_repeated = self.repeats.answer(self.user(request).name, key, f"{request.method} {request.path} {asked}", call)
        except OtherRequest:
            raise Refused(422, "this Idempotency-Key came with another request before") from None
        try:
            answer = await asyncio.wait_for(answer_of, self.limits.answer)
        except asyncio.TimeoutError:
            raise NoAnswer("no answer came in time; ask again with the same Idempotency-Key") from None
        return self._told(request, answer, **({"Idempotency-Replayed": "true"} if is_repeated else {}))

    def _told(self, request: web.Request, answer: Answer, **headers: str) -> web.Response:
        """Writes an answer. Whoever takes it has the use that it permits; where nobody does, the use has nobody yet."""
        if answer.permits is not None:
            if request.transport is None or request.transport.is_closing():
                self.book.put_up([answer.permits])
            else:
                self.book.sessions.claim(answer.permits)
        return json_response(answer, **headers)
