"""How a machine is asked: a line in, a line out, over TCP.

`NAME CLIENT COMMAND` goes through the log, and comes back as `NAME NUMBER REPLY`. NAME is the command's own: whoever asks again under it,
here or at another machine, gets the answer of the one command. `? CLIENT COMMAND` asks this machine's state, and comes back as
`? STEPS REPLY`. An answer `NAME - WHY` tells no reply."""
from __future__ import annotations

import re
import socketserver

from replicated import sums
from replicated.etcd import Address
from replicated.log import Request
from replicated.machine import Machine
from replicated.monitor import Ended

# How long a machine tries before it says that it doesn't know, in seconds.
TRIES = 4.0
LINE = re.compile(rb"(\?|[A-Za-z0-9_-]{1,64}) ([ -~]{1,65600})")
# What makes no step may be asked of one machine alone: a client's questions, and those without a client.
QUESTION = re.compile(rb"\d+ (look|value) |(session|using|explain|policy|state|steps)\b")
AMENDS = re.compile(rb"\d+ amend ")

UNKNOWN = b"unknown: ask again under this name, here or at another machine"


def answered(machine: Machine, line: bytes) -> bytes:
    """The answer to a line, both without their newlines."""
    parts = LINE.fullmatch(line)
    if parts is None:
        return b"? - no line of a name, a client and a command"
    name, rest = parts.groups()
    if name == b"?":
        return question(machine, rest)
    if AMENDS.match(rest) and not sums.DECLARATION.search(rest):
        return name + b" - the policy has to declare the objects' text `answer`"
    answer = machine.command(Request(name, rest), TRIES)
    if answer is None:
        return b"%b - %b" % (name, UNKNOWN)
    return b"%b %b %b" % (name, shown(answer.number), answer.text)


def question(machine: Machine, line: bytes) -> bytes:
    if not QUESTION.match(line):
        return b"? - only what makes no step is asked of one machine"
    reply = machine.question(line)
    return b"? %b %b" % (shown(reply.place), reply.text)


def shown(place: int | None) -> bytes:
    return b"-" if place is None else b"%d" % place


class Handler(socketserver.StreamRequestHandler):
    disable_nagle_algorithm = True

    def handle(self) -> None:
        assert isinstance(self.server, Server)
        try:
            while (line := self.rfile.readline(70_000)).endswith(b"\n"):
                self.wfile.write(answered(self.server.machine, line[:-1]) + b"\n")
        except (OSError, Ended):
            # Whoever asked is gone; or the monitor is, and the machine ends with it.
            pass


class Server(socketserver.ThreadingTCPServer):
    allow_reuse_address = True
    daemon_threads = True
    request_queue_size = 128

    def __init__(self, address: Address, machine: Machine) -> None:
        super().__init__(address, Handler)
        self.machine = machine
