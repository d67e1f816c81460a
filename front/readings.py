"""What the monitor is asked without a client's number. They make no step."""
from collections.abc import Awaitable, Callable

from front.protocol import Reply, SessionRow, Unspeakable, explained, json_part, numbers, session_row

# Why the program makes no checkpoint that it is asked for, and what whoever asked is told of it.
POINTLESS = {
    "old journal": "the journal is of version 1, which has no checkpoints",
    "point too large": "what is there is too long for a checkpoint",
}


class Pointless(Exception):
    """There can be no checkpoint. The journal goes on without one."""


class Readings:
    def __init__(self, ask: Callable[[str], Awaitable[Reply]]) -> None:
        self._ask = ask

    async def using(self, side: str = "", name: str = "") -> tuple[int, tuple[int, ...]]:
        """The place, and the uses that go on: all, or those of a subject (`s`) or an object (`o`)."""
        reply = await self._ask(f"using {side} {name}".rstrip())
        return reply.place or 0, numbers(reply.text)

    async def session(self, number: int) -> tuple[int, SessionRow | None]:
        reply = await self._ask(f"session {number}")
        return reply.place or 0, session_row(reply.text)

    async def policy(self) -> str:
        """The text of the policy in force."""
        text = json_part((await self._ask("policy")).text)
        return text if isinstance(text, str) else ""

    async def state(self) -> tuple[int, dict[str, object]]:
        """All that is there, as `report` says it."""
        reply = await self._ask("state")
        state = json_part(reply.text)
        return reply.place or 0, state if isinstance(state, dict) else {}

    async def explain(self, subject: str, right: str, thing: str) -> tuple[int, list[str]]:
        """Why a try would be decided as it would be now, in lines."""
        reply = await self._ask(f"explain {subject} {right} {thing}")
        return reply.place or 0, explained(reply.text)

    async def point(self) -> Reply:
        """Has a checkpoint written."""
        try:
            return await self._ask("point")
        except Unspeakable as why:
            reason = POINTLESS.get(str(why).rpartition(": ")[2])
            if reason is None:
                raise
            raise Pointless(reason) from None
