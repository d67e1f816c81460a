"""Users of the service: each asks commands one after the other, and notes what it was told."""
from __future__ import annotations

import random
import threading
import time
from collections.abc import Callable
from typing import NamedTuple

from replicated.client import Client, NoAnswer

# Client 0, the administrator, is one of them.
USERS = 7
ROOMS = ("hall", "yard", "attic")
# How long a user goes on asking before a command counts as lost, in seconds. No fault lasts as long.
MOST = 120.0


class Answered(NamedTuple):
    line: bytes
    number: int
    reply: bytes
    again: int
    seconds: float


def founding() -> list[bytes]:
    """What there has to be before users ask."""
    rooms = [line for room in ROOMS for line in (f"0 object {room}", f"0 set o {room} here 1")]
    return [line.encode() for line in [*rooms, *(f"0 subject u{user}" for user in range(1, USERS))]]


class User:
    """One client's commands, drawn at random: tries, ends and beats of its own uses and of others', and questions."""

    def __init__(self, user: int, draw: random.Random) -> None:
        self.user = user
        self.draw = draw
        self.uses = [1]
        self.tick = 0

    def line(self) -> bytes:
        return f"{self.user} {self.admins() if self.user == 0 else self.users()}".encode()

    def users(self) -> str:
        draw, use = self.draw, self.draw.choice(self.uses)
        tried = f"try u{self.user} use {draw.choice(ROOMS)}"
        asked = draw.choice([f"look {use}", f"value s u{self.user} credit", f"value o {draw.choice(ROOMS)} users", "try nobody use hall"])
        return draw.choices([tried, f"end {use}", f"beat {use}", asked, f"act u{self.user} read hall"], [8, 4, 3, 4, 1])[0]

    def admins(self) -> str:
        draw = self.draw
        self.tick += 1
        credit = f"set s u{draw.randrange(1, USERS)} credit {draw.randrange(20, 100)}"
        closes = f"set o {draw.choice(ROOMS)} here {draw.choice([0, 1, 1, 1])}"
        return draw.choice([credit, closes, f"set o {draw.choice(ROOMS)} most {draw.randrange(1, 5)}", f"tick {self.tick}"])

    def note(self, reply: bytes) -> None:
        words = reply.split()
        if words[0] == b"permitted":
            self.uses = [*self.uses[-3:], int(words[1])]


class Load:
    """All users at once, each in a thread, until so many commands are answered."""

    def __init__(self, client: Callable[[int], Client], seed: int) -> None:
        self.client = client
        self.users = [User(user, random.Random(f"{seed} {user}")) for user in range(USERS)]
        self.answered: list[Answered] = []
        self.lost: list[bytes] = []

    def ask(self, count: int, pause: Callable[[int], float]) -> list[threading.Thread]:
        """Begins to ask: `pause` tells how long to wait before the command of a number, in seconds."""
        numbers = iter(range(count))
        lock = threading.Lock()

        def work(user: User) -> None:
            client = self.client(user.user)
            while True:
                with lock:
                    number = next(numbers, None)
                if number is None:
                    client.close()
                    return
                time.sleep(pause(number))
                self.exchange(client, user)

        threads = [threading.Thread(target=work, args=[user], daemon=True) for user in self.users]
        for thread in threads:
            thread.start()
        return threads

    def exchange(self, client: Client, user: User) -> None:
        line, begun = user.line(), time.monotonic()
        try:
            told = client.ask(line, MOST)
        except NoAnswer:
            self.lost.append(line)
            return
        user.note(told.reply)
        self.answered.append(Answered(line, told.number, told.reply, told.again, time.monotonic() - begun))
