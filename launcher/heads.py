"""The head of a journal, by which whoever kept an older one sees whether the journal goes on from there.

The head after no record is SHA-256 (FIPS 180-4) of the file's first 8 bytes; the head after one record more is SHA-256 of the head before
it, followed by the record's payload. Checkpoints count as records. `crates/ucon_audit` defines the same."""
import re
from typing import Callable, List, NamedTuple, Optional, Tuple

from launcher.journal import FIRST_GATE, POINT, Journal, Window

# Python's own takes less time for each of many short texts than the one of OpenSSL, which `hashlib` has. Not every Python has it.
try:
    from _sha256 import sha256  # type: ignore[import-not-found]
except ImportError:
    from hashlib import sha256

HEAD = re.compile("[0-9a-f]{64}")
SIZE = 32
# Of each head a mark is kept: its first bytes, which tell where two journals begin to differ.
MARK = 2


def first_head(magic: bytes) -> bytes:
    """The head of a journal without records, whose file begins with these 8 bytes."""
    return sha256(magic).digest()


class Followed(NamedTuple):
    """A journal up to a gate: the gate's place, how many records and steps are before it, the head after them, and the marks."""

    at: int
    records: int
    steps: int
    head: bytes
    marks: bytes


def start(journal: Journal) -> Followed:
    """Where following begins. The file has a journal's magic."""
    return Followed(FIRST_GATE, 0, 0, first_head(journal.magic()), b"")


def head_of(magic: bytes, payloads: List[bytes]) -> Followed:
    """A journal whose file begins with these 8 bytes, and has these records: a policy, and then steps alone."""
    heads = heads_behind(first_head(magic), payloads)
    at = FIRST_GATE + sum(map(len, payloads)) + 5 * len(payloads)
    return Followed(at, len(heads), len(heads) - 1, heads[-1], marks_of(heads))


def heads_behind(head: bytes, payloads: List[bytes]) -> List[bytes]:
    """The heads after each of these records, which are behind those with this head."""
    heads = []
    for payload in payloads:
        head = sha256(head + payload).digest()
        heads.append(head)
    return heads


def follow(
    journal: Journal, begins: Followed, asked: int = 0, most: Optional[int] = None, hear: Optional[Callable[[Window], None]] = None
) -> Tuple[Followed, Optional[bytes]]:
    """Goes on over the records that count, each read once: up to so many in all, or to the gate behind the last one. With it comes the
    head after so many records as are asked for, where there are so many and they weren't followed before. Who hears is given what was
    read, in order."""
    at, records, steps, head, marks = begins
    found, kept = [marks], None
    for window in journal.windows(at, records):
        payloads = window.payloads()[: None if most is None else most - records]
        heads = heads_behind(head, payloads)
        head = heads[-1] if heads else head
        if hear:
            hear(window)
        if records < asked <= records + len(heads):
            kept = heads[asked - records - 1]
        # Record 0 is the policy, and a checkpoint is no step.
        steps += len(payloads) - (records == 0 and bool(payloads)) - (points_in(payloads) if POINT in window.raw else 0)
        at, records = window.at + window.gates[len(payloads)], records + len(heads)
        found.append(marks_of(heads))
        if records == most:
            break
    return Followed(at, records, steps, head, b"".join(found)), kept


def points_in(payloads: List[bytes]) -> int:
    """How many of the records are checkpoints."""
    return sum(payload.startswith(POINT) for payload in payloads)


def marks_of(heads: List[bytes]) -> bytes:
    """The first bytes of each head."""
    raw, marks = b"".join(heads), bytearray(MARK * len(heads))
    for n in range(MARK):
        marks[n::MARK] = raw[n::SIZE]
    return bytes(marks)
