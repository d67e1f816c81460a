"""`ucon policy JOURNAL`: the text of the policy in force: that of record 0, or of the last `amend`. Each one in a journal was answered `ok`
and changed the policy, since a step that is refused has no record. With `--first` it is that of record 0, which documents begin with."""
from typing import List, NamedTuple, Optional

from launcher.journal import Damaged, Journal, no_record, open_journal, step_of
from launcher.output import write
from launcher.reading import is_path

AMENDS = b"0 amend "


class Asked(NamedTuple):
    path: str
    is_first: bool


def asked_of(words: List[str]) -> Optional[Asked]:
    """What the words ask. None where they are no `policy`."""
    is_one = words[:1] == ["policy"] and words[2:] in ([], ["--first"]) and len(words) > 1 and is_path(words[1])
    return Asked(words[1], len(words) > 2) if is_one else None


class InForce(NamedTuple):
    """A policy's text, and the step that put it in force: 0 where it is that of record 0; the text of record 0; and the gate behind the
    last record that counts."""

    text: bytes
    place: int
    first: bytes
    end: int


def in_force(journal: Journal) -> InForce:
    """The policy in force behind the last record that counts."""
    found, number, end, first = b"", 0, 0, None
    place = 0
    for window in journal.windows() if journal.magic() else ():
        if first is None:
            first = found = window.payloads()[0]
        if AMENDS in window.raw:
            for n, (at, payload) in enumerate(window.records(), number):
                if n and payload.startswith(AMENDS):
                    found, place = amended(journal, n, at, payload), n
        number, end = number + len(window.gates) - 1, window.at + window.gates[-1]
    if first is None:
        raise no_record(journal, ", and so no policy")
    return InForce(found, place, first, end)


def amended(journal: Journal, number: int, at: int, payload: bytes) -> bytes:
    step = step_of(payload, 0)
    if step is None or not step.reply.startswith(b"ok"):
        raise Damaged(journal.name, number, at, "it has not the form of an `amend` that was answered `ok`")
    return step.command[len(AMENDS) - 2 :]


def run(asked: Asked) -> int:
    """Prints the text: of record 0 to the byte, and an amendment, which is one line, with a newline behind it."""
    with open_journal(asked.path) as journal:
        found = in_force(journal)
    text = found.first if asked.is_first else found.text
    write(text + (b"\n" if found.place and not asked.is_first else b""))
    return 0
