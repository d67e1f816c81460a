"""The monitor's process: lines go to it, each reply is taken by the line that it is of, and it is started again after a crash.

A line that got no reply, since the process ended, may be in the journal or not. So behind each start the steps that the journal has beyond
the last reply are read, and each is the reply of the first such line that it fits. A line that has no step there changed nothing, and is
sent again. So each line has one effect, and whoever waits needn't know of the crash."""
import asyncio
import contextlib
import logging
import os
import pathlib
import signal
import time
from collections import deque
from collections.abc import Callable
from dataclasses import dataclass, field

from front.history import History, Step
from front.metrics import Histogram
from front.protocol import Line, NoReply, Reply, Unspeakable, reply_of
from front.telling import Telling
from launcher.journal import Refused
from launcher.keeping import UNTOUCHED, Found, Keeper
from launcher.lock import Lock
from launcher.told import LOST

log = logging.getLogger("front.monitor")

# How long an opening may take, and how long a line may wait for its reply before the process is ended, in seconds.
OPENING = 600.0
HANGING = 30.0
# The longest line of the monitor: a state with all that it may hold.
LONGEST_LINE = 1 << 28
# How often one line is sent.
SENT_MOST = 3
# The wait before a start that follows a crash: the first one, and the longest.
FIRST_WAIT, LONGEST_WAIT = 0.05, 5.0
# The time in which starts are counted.
COUNTED = 60.0
# Replies behind which the store is stopped, and the journal has to be opened again.
STOPPED = ("disk fault", "stopped")
# What a reading or a request is told that can't be answered now.
UNANSWERED = (*STOPPED, "no memory")


class Unavailable(Exception):
    """The monitor can't answer now: too many lines wait, or it isn't running. The line changed nothing."""


class NoAnswer(Exception):
    """No reply came in time. Whether the line changed something isn't known yet."""


class Failed(Exception):
    """The monitor can't go on: the status and the sentence with which the front end ends."""

    def __init__(self, status: int, sentence: str) -> None:
        super().__init__(sentence)
        self.status = status


@dataclass(slots=True)
class Waiting:
    """A line and whoever waits for its reply."""

    line: Line
    reply: asyncio.Future[Reply]
    sent: int = 0
    since: float = 0.0
    is_abandoned: bool = False


@dataclass
class Figures:
    """What is counted for /metrics."""

    starts: int = 0
    crashes: int = 0
    lines: int = 0
    recovered: int = 0
    sent_again: int = 0
    seconds: Histogram = field(default_factory=Histogram)


class Monitor:
    """One journal's monitor. `take` hears each step before its reply is handed on; `unheard` each reply that nobody waits for any more."""

    def __init__(
        self, words: list[str], policy: bytes | None, name: pathlib.Path, held: Lock, history: History,
        take: Callable[[Step], None], unheard: Callable[[Reply], None], waiting_most: int, restarts: int, accepts_loss: bool,
    ) -> None:
        self.words, self.policy, self.name, self.held, self.history = words, policy, name, held, history
        self.take, self.unheard, self.waiting_most, self.restarts = take, unheard, waiting_most, restarts
        self.accepts_loss = accepts_loss
        self.figures = Figures()
        self.telling: Telling | None = None
        self._process: asyncio.subprocess.Process | None = None
        self._sent: deque[Waiting] = deque()
        self._queued: deque[Waiting] = deque()
        self._found = Found()
        self._is_ready = False
        self._is_closing = False
        self._starts: deque[float] = deque()
        self._again = asyncio.Event()

    # ---- what others ask

    @property
    def is_ready(self) -> bool:
        return self._is_ready

    @property
    def process_id(self) -> int | None:
        return self._process.pid if self._process and self._is_ready else None

    @property
    def waits(self) -> int:
        return len(self._sent) + len(self._queued)

    async def ask(self, line: Line, seconds: float) -> Reply:
        """The reply to a line. Waits so long, over a crash too."""
        if self._is_closing or self.waits >= self.waiting_most:
            raise Unavailable("too many requests wait" if not self._is_closing else "the front end is ending")
        waiting = Waiting(line, asyncio.get_running_loop().create_future())
        self._send(waiting)
        begun = time.perf_counter()
        try:
            reply = await asyncio.wait_for(asyncio.shield(waiting.reply), seconds)
        except asyncio.TimeoutError:
            waiting.is_abandoned = True
            raise NoAnswer("the monitor didn't answer in time; the request may be done or not") from None
        except asyncio.CancelledError:
            waiting.is_abandoned = True
            raise
        self.figures.seconds.note(time.perf_counter() - begun)
        if reply.is_bad_line and reply.text not in UNANSWERED:
            raise Unspeakable(f"the monitor takes this for no request: {reply.text}")
        if reply.place is None:
            raise Unavailable(reply.text)
        return reply

    # ---- its life

    async def open(self) -> None:
        """Starts it for the first time."""
        await self._start()

    async def run(self) -> None:
        """Takes its replies, and starts it again after a crash. Ends only once it is closed; fails by `Failed`."""
        while True:
            watching = asyncio.create_task(self._watch())
            try:
                await self._listen()
            finally:
                watching.cancel()
            status = await self._end()
            if self._is_closing:
                return
            self.figures.crashes += 1
            log.warning("the monitor ended with status %d; %d lines wait", status, self.waits)
            await self._start_again(status)

    async def close(self) -> None:
        """Ends it: its input ends, and it has a while to answer what it was sent."""
        self._is_closing = True
        self._again.set()
        process = self._process
        if process and process.returncode is None and process.stdin:
            process.stdin.close()
            with contextlib.suppress(asyncio.TimeoutError):
                await asyncio.wait_for(process.wait(), HANGING)
            kill(process)

    async def tell_head(self) -> None:
        """Writes the head beside the journal, in a thread of its own, where steps were told since."""
        telling = self.telling
        if telling and self._is_ready and telling.is_behind():
            try:
                made = await asyncio.to_thread(telling.follow_on)
                if telling is self.telling:
                    telling.put(*made)
            except (OSError, Refused) as why:
                log.warning("JOURNAL.told has an old head: %s", why)

    # ---- lines

    def _send(self, waiting: Waiting) -> None:
        process = self._process
        if not self._is_ready or not process or not process.stdin:
            self._queued.append(waiting)
            return
        waiting.sent += 1
        waiting.since = time.monotonic()
        self._sent.append(waiting)
        self.figures.lines += 1
        process.stdin.write(waiting.line.raw())

    async def _listen(self) -> None:
        """Takes replies until the process has no more. One that is no line of the protocol ends the process."""
        process = self._process
        assert process and process.stdout
        while True:
            try:
                raw = await process.stdout.readline()
                if not raw.endswith(b"\n"):
                    # The process has ended; a line that was cut tells nothing.
                    return
                self._answer(reply_of(raw))
            except (NoReply, ValueError) as why:
                log.error("the monitor is ended: %s", why)
                self._kill()
                return

    def _answer(self, reply: Reply) -> None:
        """The reply of the line that waits longest. A store that has stopped answers nothing: its lines wait for the next start."""
        if not self._sent:
            raise NoReply(f"a reply came that no line is waiting for: {reply.text[:80]}")
        if reply.place is None and reply.text in STOPPED:
            if self._is_ready:
                log.error("the monitor answered `%s`: its journal is opened again", reply.text)
                self._is_ready = False
                self._end_input()
            return
        waiting = self._sent.popleft()
        if waiting.line.client is not None and reply.client not in (waiting.line.client, None):
            raise NoReply(f"the reply `{reply.text[:80]}` is another client's")
        self._hand_on(waiting, reply)

    def _hand_on(self, waiting: Waiting, reply: Reply) -> None:
        """The step is taken in, its place is told, and only then whoever waits has the reply."""
        if reply.outcome and waiting.line.client is not None:
            self.take(Step(waiting.line.client, waiting.line.text, reply))
            if self.telling and reply.place:
                self.telling.note(reply.place)
        if not waiting.reply.done():
            waiting.reply.set_result(reply)
        if waiting.is_abandoned:
            self.unheard(reply)

    async def _watch(self) -> None:
        """Ends a process that doesn't answer."""
        while True:
            await asyncio.sleep(1)
            if self._sent and time.monotonic() - self._sent[0].since > HANGING:
                log.error("the monitor hasn't answered for %d seconds, and is ended", HANGING)
                self._kill()
                return

    def _end_input(self) -> None:
        """The process answers what it was sent, and ends with the status of its fault."""
        if self._process and self._process.stdin:
            self._process.stdin.close()

    def _kill(self) -> None:
        kill(self._process)

    # ---- starts and ends

    async def _start(self) -> None:
        keeper = Keeper(str(self.name), self.held, self.accepts_loss)
        try:
            self._found = await asyncio.to_thread(keeper.looked_at)
            tail = await asyncio.to_thread(keeper.keep_tail, self._found)
        except Refused as why:
            raise Failed(why.status, why.text().rstrip("\n")) from None
        process = await asyncio.create_subprocess_exec(
            *self.words, stdin=asyncio.subprocess.PIPE, stdout=asyncio.subprocess.PIPE, limit=LONGEST_LINE,
            pass_fds=(self.held.file,), start_new_session=True,
        )
        self._process = process
        self.figures.starts += 1
        steps = await self._ready(process)
        if tail:
            keeper.say_cut(tail)
        if self._found.accepted:
            await asyncio.to_thread(keeper.tell, self._found, 0)
        for line in keeper.said:
            log.warning("%s", line.rstrip("\n"))
        self.accepts_loss = False
        await self._recover(keeper, steps)

    async def _ready(self, process: asyncio.subprocess.Process) -> int:
        """Hands over the policy, and waits for `- K ready`: how many steps the journal has."""
        assert process.stdin and process.stdout
        with contextlib.suppress(OSError):
            process.stdin.write(self.policy + b"%%\n" if self.policy is not None else b"")
            await process.stdin.drain()
        try:
            raw = await asyncio.wait_for(process.stdout.readline(), OPENING)
        except (asyncio.TimeoutError, ValueError):
            self._kill()
            raw = b""
        if raw.endswith(b"\n"):
            with contextlib.suppress(NoReply):
                if (ready := reply_of(raw)).text == "ready" and ready.place is not None:
                    return ready.place
            self._kill()
        # One whose output has ended is about to end, with a status that tells why.
        status = await self._status(process)
        # One that ended well, but told nothing, failed all the same.
        status = status or 128
        raise Failed(status, f"the monitor didn't begin; it ended with status {status}")

    async def _recover(self, keeper: Keeper, steps: int) -> None:
        """Reads the steps that came without a reply, gives the lines that they fit their replies, and sends the others again."""
        told = self.telling.place if self.telling else 0
        if steps < told:
            self._kill()
            raise Failed(LOST, f"{self.name} has {steps} steps, and {told} were told: nothing is served below that")
        found: list[Step] = []
        # At the first start nobody waits, and each step is taken as it is read.
        await asyncio.to_thread(self.history.catch_up, found.append if self.telling else self.take)
        if self.history.steps + len(found) != steps:
            self._kill()
            raise Failed(1, f"the monitor has {steps} steps, and the journal {self.history.steps + len(found)}")
        if self.telling:
            self.telling.close()
        self.telling = Telling(keeper, self._found.followed)
        await asyncio.to_thread(self.telling.begin, steps)
        if self.telling.fault:
            log.warning("%s", self.telling.fault)
        self._is_ready = True
        self._match(found)

    def _match(self, found: list[Step]) -> None:
        """Lines are answered in their order, so the line of a step is the first that it fits behind the line of the step before."""
        waiting = [*self._sent, *self._queued]
        self._sent.clear()
        self._queued.clear()
        at, left = 0, []
        for step in found:
            line = Line(step.client, step.command)
            fits = next((n for n in range(at, len(waiting)) if waiting[n].sent and waiting[n].line == line), None)
            if fits is None:
                self.take(step)
                continue
            left += waiting[at:fits]
            at = fits + 1
            self.figures.recovered += 1
            self._hand_on(waiting[fits], step.reply)
        for it in [*left, *waiting[at:]]:
            self._send_again(it)

    def _send_again(self, waiting: Waiting) -> None:
        if waiting.is_abandoned:
            return
        if waiting.sent >= SENT_MOST:
            waiting.reply.set_result(Reply(waiting.line.client, None, "the monitor failed at this line"))
            return
        self.figures.sent_again += waiting.sent > 0
        self._send(waiting)

    async def _start_again(self, status: int) -> None:
        """Starts it again, so often within a minute as is allowed. A status by which it refuses its journal or policy ends all."""
        wait = FIRST_WAIT
        while True:
            now = time.monotonic()
            while self._starts and self._starts[0] < now - COUNTED:
                self._starts.popleft()
            if len(self._starts) >= self.restarts:
                raise Failed(status or 1, f"the monitor ended {len(self._starts) + 1} times within a minute, the last time with status {status}")
            self._starts.append(now)
            with contextlib.suppress(asyncio.TimeoutError):
                await asyncio.wait_for(self._again.wait(), wait)
            if self._is_closing:
                return
            try:
                return await self._start()
            except Failed as why:
                if why.status in UNTOUCHED or why.status == LOST:
                    raise
                status, wait = why.status, min(2 * wait, LONGEST_WAIT)
                log.error("%s", why)

    async def _end(self) -> int:
        """Waits for the process, which has no more to say. Its status, as a shell gives it."""
        self._is_ready = False
        assert self._process
        status = await self._status(self._process)
        if self._is_closing:
            self._tell_end(status)
        return status

    async def _status(self, process: asyncio.subprocess.Process) -> int:
        """The status of a process that is about to end, and is killed where it doesn't, as a shell gives it."""
        try:
            await asyncio.wait_for(process.wait(), HANGING)
        except asyncio.TimeoutError:
            kill(process)
            await process.wait()
        status = process.returncode or 0
        return status if status >= 0 else 128 - status

    def _tell_end(self, status: int) -> None:
        if not self.telling:
            return
        keeper = self.telling.keeper
        self.telling.close()
        keeper.said.clear()
        keeper.tell(self._found, status)
        for line in keeper.said:
            log.warning("%s", line.rstrip("\n"))


def kill(process: asyncio.subprocess.Process | None) -> None:
    """Kills a process, where it runs still. Its own `kill` and `send_signal` look first whether it has ended, and then the status is theirs:
    whoever waits for it, in a thread of asyncio's, finds none and says 255."""
    if process and process.returncode is None:
        with contextlib.suppress(ProcessLookupError):
            os.kill(process.pid, signal.SIGKILL)


def policy_of(path: pathlib.Path) -> bytes:
    """The policy of a file: all of it, or of a document what stands before its divider. Fails by `Failed`."""
    from launcher.amending import policy_in

    try:
        policy = policy_in(os.fspath(path))
    except Refused as why:
        raise Failed(why.status, why.text().rstrip("\n")) from None
    return policy if policy.endswith(b"\n") or not policy else policy + b"\n"
