"""The resident monitor of a machine: a line in, its reply out, told once its step is on the disk."""
from __future__ import annotations

import subprocess
import threading
from collections.abc import Sequence
from typing import NamedTuple

# Replies of a monitor that couldn't decide. Such a command is no step, and another copy may decide it.
UNDECIDED = (b"no memory", b"disk fault", b"stopped")
# The status of `./ucon converse` if another process has the journal.
IN_USE = 122


class Ended(Exception):
    """The monitor is gone, or answers no more. What it was asked last may be a step of the journal, or not."""


class InUse(Ended):
    """Another process writes the journal."""


class Reply(NamedTuple):
    """The steps so far, none if the line was no request, and what is said."""

    place: int | None
    text: bytes

    @classmethod
    def read(cls, line: bytes) -> Reply:
        """A line `CLIENT PLACE REPLY`, as it comes."""
        _, place, text = line.split(b" ", 2)
        return cls(None if place == b"-" else int(place), text)


class Monitor:
    """A running process. Lines are answered in order, so one lock pairs them."""

    def __init__(self, words: Sequence[str], policy: bytes, held: int) -> None:
        """Opens the journal. `held` is a lock's file that the process keeps open for as long as it lives."""
        self.lock = threading.Lock()
        self.process = subprocess.Popen(list(words), stdin=subprocess.PIPE, stdout=subprocess.PIPE, pass_fds=[held])
        self.steps = int(self.exchange(policy + b"%%\n").split()[1])

    def ask(self, line: bytes) -> Reply:
        with self.lock:
            reply = Reply.read(self.exchange(line + b"\n"))
        if reply.text in UNDECIDED:
            raise Ended(f"{line.decode()}: {reply.text.decode()}")
        return reply

    def must_run(self) -> None:
        if (status := self.process.poll()) is not None:
            raise Ended(f"the monitor ended with status {status}")

    def exchange(self, raw: bytes) -> bytes:
        assert self.process.stdin and self.process.stdout
        try:
            self.process.stdin.write(raw)
            self.process.stdin.flush()
            line = self.process.stdout.readline()
        except OSError:
            # It reads no more: its status tells why.
            line = b""
        if not line.endswith(b"\n"):
            status = self.process.wait()
            raise InUse("another process has the journal") if status == IN_USE else Ended(f"the monitor ended with status {status}")
        return line[:-1]

    def close(self) -> None:
        """Closes its input, at which it ends."""
        self.process.communicate()
