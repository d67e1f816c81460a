"""One machine: it puts the commands that it is asked into the log, and applies the log in order through its own journal.

One thread owns the log's end and the monitor's steps. The others bring lines and carry replies away. A command is answered once this
journal has it. Then a majority of etcd's servers has it too, since it came from there."""
from __future__ import annotations

import fcntl
import os
import pathlib
import sys
import threading
import time
from collections.abc import Callable, Sequence
from concurrent.futures import Future
from typing import NamedTuple, TypeVar

from replicated import journal, sums
from replicated.etcd import Unavailable
from replicated.journal import Step
from replicated.log import MOST_PUT, MOST_READ, Broken, Entry, Log, Request
from replicated.monitor import Ended, InUse, Monitor, Reply

T = TypeVar("T")
# A digest is compared behind each number that this divides.
COMPARED = 100
# How long the log's end is left alone if nobody tells of a change, in seconds.
REST = 0.5
# How many replies are kept for those who ask again.
KEPT = 10_000
DIFFERS = 3
# How long a monitor that was left behind may take to end, in seconds.
ENDING = 30.0
# What a log begins with, whichever machine comes first.
FOUNDING = Request(b"founding", sums.FOUNDING)


class Differs(Exception):
    """This copy isn't what the others are."""


FORGOTTEN = b"made no step, and its reply is forgotten: ask again under another name"


class Answer(NamedTuple):
    """A command's number and its reply; or no number, and why there is no reply."""

    number: int | None
    text: bytes


class Waiting:
    """The commands that somebody waits for, in the order in which they came."""

    def __init__(self) -> None:
        self.lock = threading.Lock()
        self.asked: dict[bytes, tuple[Request, Future[Answer]]] = {}

    def wait(self, request: Request, wake: threading.Event, seconds: float) -> Answer | None:
        """The answer to a command. None if it didn't come in time: the command may be in the log by then, or not."""
        with self.lock:
            _, coming = self.asked.setdefault(request.name, (request, Future()))
        wake.set()
        try:
            return coming.result(seconds)
        except TimeoutError:
            with self.lock:
                self.asked.pop(request.name, None)
            return None

    def first(self) -> list[Request]:
        with self.lock:
            return [request for request, _ in list(self.asked.values())[:MOST_PUT]]

    def answer(self, name: bytes, answer: Answer) -> None:
        with self.lock:
            found = self.asked.pop(name, None)
        if found:
            found[1].set_result(answer)


class Machine:
    def __init__(self, folder: pathlib.Path, log: Log, policy: bytes, words: Sequence[str]) -> None:
        """Opens the journal in the folder. `words` start the monitor."""
        folder.mkdir(parents=True, exist_ok=True)
        self.folder = folder
        self.log = log
        self.waiting = Waiting()
        self.wake = threading.Event()
        self.replies: dict[int, bytes] = {}
        self.digest = sums.first_digest(policy)
        self.applied = 0
        # The last number behind which a digest is compared, and the digest.
        self.compared = (0, self.digest)
        if self.differs().exists():
            raise Differs(self.differs().read_text())
        self.held = locked(folder / "lock")
        self.monitor = opened(words, policy, self.held)
        try:
            self.take_up()
        except BaseException:
            self.monitor.close()
            raise

    def take_up(self) -> None:
        """Takes up where the journal ends, if it is what the others have."""
        for step in journal.steps(self.folder / "journal"):
            self.note(step)
        if self.monitor.steps != self.applied:
            raise Ended(f"the journal has {self.monitor.steps} steps, and `ucon log` prints {self.applied}")
        self.compare()
        if self.applied and not insisted(lambda: self.log.has(self.applied)):
            raise Broken(f"the journal has number {self.applied}, and the log doesn't: etcd has lost entries")

    def differs(self) -> pathlib.Path:
        return self.folder / "differs"

    # ---- the log's end

    def run(self) -> None:
        """Never ends but by an exception."""
        threading.Thread(target=self.watch, daemon=True).start()
        while True:
            self.wake.wait(REST)
            self.wake.clear()
            try:
                self.turn()
            except Unavailable as why:
                print(f"no server of etcd answers: {why}", file=sys.stderr, flush=True)
                self.wake.wait(REST)

    def watch(self) -> None:
        """Wakes the turn when a change is told. Where nothing is told, the turn wakes by itself."""
        watching = Log(type(self.log.etcd)(self.log.etcd.servers), self.log.group.decode())
        while True:
            for number in watching.changes():
                if number > self.applied:
                    self.wake.set()
            watching.etcd.go_on()
            time.sleep(REST)

    def turn(self) -> None:
        """Puts what waits, or reads what is new, and applies it."""
        self.monitor.must_run()
        asked = self.waiting.first()
        entries = self.put(asked) if asked else self.log.after(self.applied)
        for entry in entries:
            self.apply(entry)
        if len(entries) >= MOST_READ or self.waiting.first():
            self.wake.set()

    def put(self, asked: Sequence[Request]) -> list[Entry]:
        """Puts commands at the log's end, and brings the entries up to there. Those of others that came first are learned as a put fails, so
        it is tried again at once: what waits for its place in the log doesn't wait for the journal."""
        entries: list[Entry] = []
        while asked and len(entries) < MOST_READ:
            behind = self.applied + len(entries)
            found = self.log.put(behind, asked if behind else [FOUNDING])
            entries += found.entries
            for name, number in found.numbers.items():
                if number <= self.applied:
                    self.waiting.answer(name, self.told_before(number))
            known = found.numbers.keys() | {entry.name for entry in found.entries}
            if not known:
                # No number was taken, and no name: what isn't there is the number before.
                raise Broken(f"the journal has number {behind}, and the log doesn't: etcd has lost entries")
            asked = [request for request in asked if request.name not in known]
        return entries

    # ---- one number of the log

    def apply(self, entry: Entry) -> None:
        """Makes the one step of a number, and answers who waits for it."""
        reply = self.monitor.ask(entry.line)
        if reply.place == entry.number:
            self.note(Step(entry.line, reply.text))
        else:
            self.mark(entry, reply)
        self.replies[entry.number] = reply.text
        self.replies.pop(entry.number - KEPT, None)
        self.waiting.answer(entry.name, Answer(entry.number, reply.text))
        if entry.number == self.compared[0]:
            self.compare()

    def mark(self, entry: Entry, reply: Reply) -> None:
        """Makes the step of a command that made none."""
        line = sums.mark_for(entry.line, reply.text)
        marked = self.monitor.ask(line)
        if marked.place != entry.number:
            raise Ended(f"number {entry.number} can't be marked: {marked.text.decode()}")
        self.note(Step(line, marked.text))

    def note(self, step: Step) -> None:
        """Takes in the next step of the journal."""
        self.applied += 1
        self.digest = sums.next_digest(self.digest, *step)
        if self.applied % COMPARED == 0:
            self.compared = (self.applied, self.digest)

    def compare(self) -> None:
        """Never returns if the others have another digest."""
        number, digest = self.compared
        agreed = insisted(lambda: self.log.agreed(number, digest))
        if agreed == digest:
            return
        said = f"this copy differs from the others: by number {number} its digest is {digest.decode()}, theirs {agreed.decode()}. It answers "
        said += "no more. Compare `ucon log` of both journals, and the policies"
        self.differs().write_text(said)
        raise Differs(said)

    def told_before(self, number: int) -> Answer:
        """The answer to a command that is in the journal: its reply, or the journal's."""
        if (reply := self.replies.get(number)) is not None:
            return Answer(number, reply)
        step = journal.step(self.folder / "journal", number)
        return Answer(None, FORGOTTEN) if sums.MARK.fullmatch(step.line) else Answer(number, step.reply)

    # ---- for those who ask

    def command(self, request: Request, seconds: float) -> Answer | None:
        return self.waiting.wait(request, self.wake, seconds)

    def question(self, line: bytes) -> Reply:
        """Answers from the state that this machine has, which may be older than the log's."""
        return self.monitor.ask(line)


def insisted(call: Callable[[], T]) -> T:
    """What a call of etcd brings, however long no server answers."""
    while True:
        try:
            return call()
        except Unavailable as why:
            print(f"no server of etcd answers: {why}", file=sys.stderr, flush=True)
            time.sleep(REST)


def opened(words: Sequence[str], policy: bytes, held: int) -> Monitor:
    """A monitor over the journal, once the one before has ended: it may still write its last step."""
    ends = time.monotonic() + ENDING
    while True:
        try:
            return Monitor(words, policy, held)
        except InUse:
            if time.monotonic() > ends:
                raise
            time.sleep(REST)


def locked(path: pathlib.Path) -> int:
    """Locks the machine's folder. The monitor inherits the lock, so an old one that still writes holds the new one up."""
    held = os.open(path, os.O_RDWR | os.O_CREAT, 0o666)
    fcntl.flock(held, fcntl.LOCK_EX)
    return held
