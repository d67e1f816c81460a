"""Whose each session is, and which uses go on: read off the steps, as the monitor answered them.

A session belongs to its subject. Its client's number goes with it, since the monitor takes `again`, `beat` and `end` from that number alone."""
import enum
from array import array
from collections.abc import Iterable
from dataclasses import dataclass
from typing import Any

from front.history import Step


class State(enum.IntEnum):
    requesting = 0
    denied = 1
    accessing = 2
    revoked = 3
    ended = 4


BY_OUTCOME = {"permitted": State.accessing, "denied": State.denied, "waiting": State.requesting, "ended": State.ended}


@dataclass(frozen=True, slots=True)
class Session:
    number: int
    client: int
    subject: str
    right: str
    object: str
    state: State

    def told(self) -> dict[str, Any]:
        return {"session": self.number, "right": self.right, "object": self.object, "state": self.state.name}


class _Names:
    """Names as numbers, and back."""

    def __init__(self) -> None:
        self.all: list[str] = []
        self._numbers: dict[str, int] = {}

    def number(self, name: str) -> int:
        found = self._numbers.get(name)
        if found is None:
            found = self._numbers[name] = len(self.all)
            self.all.append(name)
        return found


class Sessions:
    """All sessions of the journal, some twenty bytes each."""

    def __init__(self) -> None:
        self._names = _Names()
        self._clients, self._states = array("B"), array("B")
        self._subjects, self._rights, self._objects = array("I"), array("I"), array("I")
        self._using: dict[int, None] = {}
        self._using_of: dict[str, dict[int, None]] = {}
        # When a use that nobody has claimed is ended.
        self._unclaimed: dict[int, float] = {}

    def __len__(self) -> int:
        return len(self._states)

    # ---- what is known

    def get(self, number: int) -> Session | None:
        at = number - 1
        if not 0 <= at < len(self._states):
            return None
        name = self._names.all
        return Session(
            number, self._clients[at], name[self._subjects[at]], name[self._rights[at]], name[self._objects[at]], State(self._states[at])
        )

    def of(self, subject: str, number: int) -> Session | None:
        """A session of this subject. None where it is another's, or there is none: nobody is told which."""
        found = self.get(number)
        return found if found and found.subject == subject else None

    def subject_of(self, number: int) -> str | None:
        at = number - 1
        return self._names.all[self._subjects[at]] if 0 <= at < len(self._subjects) else None

    def using(self) -> list[int]:
        """The uses that go on, in the order in which they began."""
        return list(self._using)

    def using_of(self, subject: str) -> list[int]:
        return list(self._using_of.get(subject, ()))

    # ---- steps

    def take(self, step: Step) -> None:
        """Takes in what a step did to sessions."""
        text = step.reply.text
        if text == "ok":
            return
        number = step.reply.session
        if number is not None:
            if step.command.startswith("try "):
                self._add(number, step)
            self._set(number, BY_OUTCOME[step.reply.outcome])
        if "revoked" in text:
            for revocation in step.reply.revocations:
                self._set(revocation.session, State.revoked)

    def _add(self, number: int, step: Step) -> None:
        if number != len(self) + 1:
            raise ValueError(f"session {number} came behind session {len(self)}")
        subject, right, thing = step.command.split(" ")[1:]
        self._clients.append(step.client)
        self._states.append(State.requesting)
        for names, name in ((self._subjects, subject), (self._rights, right), (self._objects, thing)):
            names.append(self._names.number(name))

    def _set(self, number: int, state: State) -> None:
        self._states[number - 1] = state
        subject = self.subject_of(number) or ""
        if state is State.accessing:
            self._using[number] = None
            self._using_of.setdefault(subject, {})[number] = None
        else:
            self._using.pop(number, None)
            self._unclaimed.pop(number, None)
            own = self._using_of.get(subject, {})
            own.pop(number, None)
            if not own:
                self._using_of.pop(subject, None)

    # ---- claims

    def put_up(self, numbers: Iterable[int], until: float) -> None:
        """Nobody is known to hold these uses. They are ended unless somebody claims them by then."""
        for number in numbers:
            if number in self._using:
                self._unclaimed[number] = until

    def claim(self, number: int) -> None:
        self._unclaimed.pop(number, None)

    def claim_all(self, subject: str) -> None:
        if self._unclaimed:
            for number in self._using_of.get(subject, ()):
                self._unclaimed.pop(number, None)

    def overdue(self, now: float) -> list[Session]:
        found = (self.get(number) for number, until in self._unclaimed.items() if until <= now)
        return [it for it in found if it]
