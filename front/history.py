"""The journal's steps by their places: those of before are read from the file, those of now come from the replies.

The newest steps are kept; older ones are read again, from the nearest place whose offset is known."""
import asyncio
import bisect
import pathlib
from collections import deque
from collections.abc import Callable, Iterator
from dataclasses import dataclass

from front.protocol import Reply
from launcher.journal import FIRST_GATE, Journal, Step as Record, open_journal, step_of
from launcher.journal import POINT
from launcher.log import text_of

# How many of the newest steps are kept.
KEPT = 4096


@dataclass(frozen=True, slots=True)
class Step:
    """A step: whose command it is, the command, and its reply with the place."""

    client: int
    command: str
    reply: Reply

    @property
    def place(self) -> int:
        return self.reply.place or 0


@dataclass(frozen=True, slots=True, order=True)
class Mark:
    """A gate: how many steps are before it, where it is, and how many records are before it."""

    steps: int
    at: int
    records: int


class History:
    def __init__(self, path: pathlib.Path) -> None:
        self.path = path
        # How many steps there are, and the newest of them.
        self.steps = 0
        self.newest: deque[Step] = deque(maxlen=KEPT)
        self._marks = [Mark(0, FIRST_GATE, 0)]
        self._waiting: set[asyncio.Future[None]] = set()

    # ---- steps that come

    def add(self, step: Step) -> None:
        """Takes in the next step."""
        if step.place != self.steps + 1:
            raise ValueError(f"step {step.place} came behind step {self.steps}")
        self.steps += 1
        self.newest.append(step)
        waiting, self._waiting = self._waiting, set()
        for it in waiting:
            if not it.done():
                it.set_result(None)

    async def wait(self, place: int, seconds: float) -> bool:
        """Waits until there is a step behind this place, or so long. Whether there is one."""
        if self.steps > place:
            return True
        waiting = asyncio.get_running_loop().create_future()
        self._waiting.add(waiting)
        try:
            await asyncio.wait_for(waiting, seconds)
        except asyncio.TimeoutError:
            pass
        finally:
            self._waiting.discard(waiting)
        return self.steps > place

    # ---- steps of before

    def catch_up(self, hear: Callable[[Step], None]) -> None:
        """Reads the steps that the file has behind the last one that came, in their order. Nothing else may come meanwhile."""
        for step in self._from_file(self.steps):
            hear(step)

    async def read(self, behind: int, most: int) -> list[Step]:
        """The steps behind a place, at most so many."""
        if behind >= self.steps:
            return []
        if self.newest and behind + 1 >= self.newest[0].place:
            first = behind + 1 - self.newest[0].place
            return [self.newest[n] for n in range(first, min(first + most, len(self.newest)))]
        last = min(self.steps, behind + most)
        return await asyncio.to_thread(self._read_file, behind, last)

    def _read_file(self, behind: int, last: int) -> list[Step]:
        found: list[Step] = []
        for step in self._from_file(behind):
            if step.place > last:
                break
            found.append(step)
        return found

    def _from_file(self, behind: int) -> Iterator[Step]:
        """The steps behind a place, as the file has them. Marks are set on the way."""
        with open_journal(str(self.path)) as journal:
            if not journal.magic():
                return
            has_points = journal.version() > 1
            mark = self._marks[bisect.bisect_right(self._marks, behind, key=lambda it: it.steps) - 1]
            place, number = mark.steps, mark.records
            for window in journal.windows(mark.at, mark.records):
                if place > self._marks[-1].steps:
                    self._marks.append(Mark(place, window.at, number))
                for payload in window.payloads():
                    is_step = number > 0 and not (has_points and payload.startswith(POINT))
                    number += 1
                    if not is_step:
                        continue
                    place += 1
                    if place > behind:
                        yield self._step(journal, payload, place)

    def _step(self, journal: Journal, payload: bytes, place: int) -> Step:
        record: Record | None = step_of(payload, place)
        if record is None:
            raise ValueError(f"{journal.name}: step {place} has not the form of a step")
        return Step(record.client, text_of(record.command), Reply(record.client, place, text_of(record.reply)))
