"""`GET /events`: each step as it comes, as server-sent events, from any place on.

A stream is a place: the steps behind it are read from the history, however slow its reader is, and none is missed. Its id is the step's place,
so that a reader that comes back with `Last-Event-ID` goes on where it was."""
import asyncio
import json
import time
from collections import Counter
from collections.abc import Callable

from aiohttp import web

from front.history import History, Step
from front.sessions import Session, Sessions
from front.users import User

# How many steps are written at once, and the time after which a reader hears that nothing came, in seconds.
AT_ONCE = 256
QUIET = 15.0
# How often a stream looks whether it is to end, and how long one write may take, in seconds.
LOOKED = 1.0
WRITING = 30.0


def of_step(step: Step, sessions: Sessions) -> dict[str, object]:
    """A step as an administrator sees it: all that it did, and to whom."""
    return {"place": step.place, "client": step.client, "command": step.command, "reply": step.reply.text, "sessions": uses(step, sessions, None)}


def of_own(step: Step, sessions: Sessions, subject: str) -> dict[str, object] | None:
    """A step as a user sees it: what became of its own sessions, and its own command. None where it concerns none of them."""
    own = uses(step, sessions, subject)
    is_own = step.command.startswith(f"act {subject} ") or any(it["outcome"] != "revoked" for it in own)
    return {"place": step.place, **({"command": step.command} if is_own else {}), "sessions": own} if own else None


def uses(step: Step, sessions: Sessions, subject: str | None) -> list[dict[str, object]]:
    """The sessions that a step concerns, in order: the one that it is of, and those that it revoked. Of one subject, where it is given."""
    found: list[tuple[str, int, str | None]] = []
    number = step.reply.session
    if number is not None:
        found.append((step.reply.outcome, number, step.reply.label))
    elif step.command.startswith("beat "):
        found.append(("beat", int(step.command[5:]), None))
    found += [("revoked", it.session, it.label) for it in step.reply.revocations]
    rows = [(what, sessions.get(number), label) for what, number, label in found]

    def row(what: str, it: Session, label: str | None) -> dict[str, object]:
        who = {"subject": it.subject} if subject is None else {}
        return {"session": it.number, "outcome": what, "label": label, **who, "right": it.right, "object": it.object}

    return [row(what, it, label) for what, it, label in rows if it and subject in (None, it.subject)]


def message(place: int, kind: str, said: dict[str, object]) -> bytes:
    return f"id: {place}\nevent: {kind}\ndata: {json.dumps(said, separators=(',', ':'))}\n\n".encode()


class Streams:
    """The streams that are open."""

    def __init__(self, history: History, sessions: Sessions, most_of_user: int, is_let_in: Callable[[User], bool]) -> None:
        self._history, self._sessions, self._most, self._is_let_in = history, sessions, most_of_user, is_let_in
        self._open: Counter[str] = Counter()
        self._is_closing = False

    def __len__(self) -> int:
        return self._open.total()

    def close(self) -> None:
        """Ends each stream within `LOOKED` seconds."""
        self._is_closing = True

    def has_room(self, user: User) -> bool:
        return self._open[user.name] < self._most

    async def serve(self, request: web.Request, response: web.StreamResponse, user: User, behind: int) -> None:
        """Writes the steps behind a place until the reader goes. The first message says how far the history is."""
        self._open[user.name] += 1
        try:
            response.content_type = "text/event-stream"
            response.headers["Cache-Control"] = "no-store"
            response.headers["X-Accel-Buffering"] = "no"
            await response.prepare(request)
            await self._write(response, b"retry: 1000\n" + self._at(behind))
            await self._follow(response, user, behind)
        except (ConnectionError, asyncio.TimeoutError):
            # The reader has gone, or takes nothing.
            pass
        finally:
            self._open[user.name] -= 1

    async def _follow(self, response: web.StreamResponse, user: User, behind: int) -> None:
        """A user hears nothing at the moment of another's step; the place comes at the next quiet moment, so that who comes back needn't
        read again what didn't concern it."""
        quiet = time.monotonic() + QUIET
        while not self._is_closing and self._is_let_in(user):
            steps = await self._history.read(behind, AT_ONCE)
            seen = [(it.place, self._seen(it, user)) for it in steps]
            raw = b"".join(message(place, "step", it) for place, it in seen if it is not None)
            behind = steps[-1].place if steps else behind
            left = quiet - time.monotonic()
            if raw or left <= 0:
                await self._write(response, raw or self._at(behind))
                quiet = time.monotonic() + QUIET
            elif not steps:
                await self._history.wait(behind, min(left, LOOKED))

    def _at(self, place: int) -> bytes:
        return message(place, "at", {"place": place})

    def _seen(self, step: Step, user: User) -> dict[str, object] | None:
        return of_step(step, self._sessions) if user.is_admin else of_own(step, self._sessions, user.subject)

    async def _write(self, response: web.StreamResponse, raw: bytes) -> None:
        await asyncio.wait_for(response.write(raw), WRITING)
