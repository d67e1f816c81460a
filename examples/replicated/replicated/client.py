"""Whoever asks a group: it goes on to the next machine when one doesn't answer, and asks again under the same name."""
from __future__ import annotations

import secrets
import socket
import time
from collections.abc import Sequence
from typing import NamedTuple

from replicated.etcd import Address

# How long one machine may take, in seconds. It says by itself that it doesn't know before that.
PATIENCE = 5.0
# How long a machine that failed is left alone, in seconds.
REST = 0.1


class NoAnswer(Exception):
    """No machine answered in time. The command may be in the log, or not."""


class Told(NamedTuple):
    """The command's number in the log, which is its place in each journal, and the reply; and how often it was asked again."""

    number: int
    reply: bytes
    again: int


class Connection:
    """One machine. Lines are answered in order."""

    def __init__(self, address: Address, patience: float) -> None:
        self.socket = socket.create_connection(address, patience)
        self.socket.setsockopt(socket.IPPROTO_TCP, socket.TCP_NODELAY, 1)
        self.replies = self.socket.makefile("rb")

    def exchange(self, line: bytes) -> bytes:
        self.socket.sendall(line + b"\n")
        answer = self.replies.readline()
        if not answer.endswith(b"\n"):
            raise ConnectionError("the machine is gone")
        return answer[:-1]

    def close(self) -> None:
        self.replies.close()
        self.socket.close()


class Client:
    def __init__(self, machines: Sequence[Address], at: int = 0, patience: float = PATIENCE) -> None:
        self.machines = list(machines)
        self.at = at % len(machines)
        self.patience = patience
        self.connection: Connection | None = None

    def ask(self, line: bytes, seconds: float, name: bytes | None = None) -> Told:
        """Has a command `CLIENT COMMAND` done once, and tells its reply."""
        name = name or fresh_name()
        ends, again = time.monotonic() + seconds, 0
        while time.monotonic() < ends:
            _, number, reply = self.exchange(name + b" " + line).split(b" ", 2)
            if number != b"-":
                return Told(int(number), reply, again)
            if b"another name" in reply:
                name = fresh_name()
            elif b"unknown" not in reply:
                raise ValueError(reply.decode())
            again += 1
            self.go_on()
        raise NoAnswer(line.decode())

    def read(self, line: bytes) -> Told:
        """Asks the state of one machine, which may be older than the log's."""
        _, number, reply = self.exchange(b"? " + line).split(b" ", 2)
        if number == b"-":
            raise NoAnswer(reply.decode())
        return Told(int(number), reply, 0)

    def exchange(self, line: bytes) -> bytes:
        """An answer; or one that says that it's unknown, if the machine is gone."""
        try:
            if self.connection is None:
                self.connection = Connection(self.machines[self.at], self.patience)
            return self.connection.exchange(line)
        except OSError:
            time.sleep(REST)
            return b"? - unknown: no answer"

    def go_on(self) -> None:
        self.close()
        self.at = (self.at + 1) % len(self.machines)

    def close(self) -> None:
        if self.connection is not None:
            self.connection.close()
        self.connection = None


def fresh_name() -> bytes:
    return secrets.token_hex(8).encode()
