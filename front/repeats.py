"""A request that is repeated under its Idempotency-Key gets its first answer.

The first one runs as a task of its own: who repeats it meanwhile waits for the same answer, and it ends though its connection has gone, or
the monitor has to be started again. Answers are kept for a while, in memory: a front end that is started again knows none of them."""
import asyncio
import re
import time
from collections import OrderedDict
from collections.abc import Awaitable, Callable, Coroutine
from dataclasses import dataclass
from typing import Any, Generic, TypeVar

Answer = TypeVar("Answer")

KEY = re.compile(r"[!-~]{1,200}")
# How many keys of one user are kept, and of how many users. The oldest go first.
MOST_OF_USER = 10_000
MOST_USERS = 4096


class OtherRequest(Exception):
    """The key was given with another request before."""


@dataclass(slots=True)
class Kept(Generic[Answer]):
    asked: str
    answer: "asyncio.Task[Answer]"
    until: float


class Repeats(Generic[Answer]):
    """Answers by user and key. One that failed by an exception of `forgotten` changed nothing, and isn't kept."""

    def __init__(self, seconds: float, forgotten: tuple[type[BaseException], ...], clock: Callable[[], float] = time.monotonic) -> None:
        self._seconds, self._forgotten, self._clock = seconds, forgotten, clock
        self._kept: OrderedDict[str, OrderedDict[str, Kept[Answer]]] = OrderedDict()

    def __len__(self) -> int:
        return sum(map(len, self._kept.values()))

    def answer(self, user: str, key: str, asked: str, make: Callable[[], Coroutine[Any, Any, Answer]]) -> tuple[Awaitable[Answer], bool]:
        """The answer to wait for, and whether this request was made before. Fails by `OtherRequest`."""
        own = self._of(user)
        before = own.get(key)
        if before:
            if before.asked != asked:
                raise OtherRequest
            return asyncio.shield(before.answer), True
        task = asyncio.create_task(make())
        own[key] = Kept(asked, task, self._clock() + self._seconds)
        task.add_done_callback(lambda done: self._ended(user, key, done))
        if len(own) > MOST_OF_USER:
            own.popitem(last=False)
        return asyncio.shield(task), False

    def _of(self, user: str) -> OrderedDict[str, Kept[Answer]]:
        """A user's keys that are young enough, in the order in which they came."""
        own = self._kept.setdefault(user, OrderedDict())
        self._kept.move_to_end(user)
        if len(self._kept) > MOST_USERS:
            self._kept.popitem(last=False)
        now = self._clock()
        while own and (first := next(iter(own.values()))).until < now and first.answer.done():
            own.popitem(last=False)
        return own

    def _ended(self, user: str, key: str, task: "asyncio.Task[Answer]") -> None:
        failed = asyncio.CancelledError() if task.cancelled() else task.exception()
        if failed is not None and isinstance(failed, (*self._forgotten, asyncio.CancelledError)):
            own = self._kept.get(user, OrderedDict())
            if (kept := own.get(key)) and kept.answer is task:
                del own[key]
