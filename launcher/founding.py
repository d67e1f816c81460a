"""Whether the document is whole with which a journal begins.

An input that ends before its line `%%` may be the front of one, of a program that was stopped; and the front of a policy is often a policy,
which a journal would keep for ever. So before a journal is begun, that line is looked for in what comes on standard input."""
import contextlib
import os
import stat
import threading
from typing import IO, NamedTuple

from launcher.journal import Refused
from launcher.program import file_of
from launcher.source import policy_end

# The journal wasn't begun.
NOT_BEGUN = 121
# More than the program takes of a document; it says so then.
ENOUGH = 4_194_305
PART = 1 << 16
DIVIDER = b"%%\n"


class Front(NamedTuple):
    """What came on standard input: all of it, or of a conversation that is heard what stands up to the line. `is_taken` says that it is read
    from there and gone."""

    raw: bytes
    is_taken: bool

    @property
    def is_whole(self) -> bool:
        return policy_end(self.raw) < len(self.raw)


def look(is_heard: bool, is_coming: bool = False) -> Front:
    """Reads standard input as far as it is wanted. A file is left as it is; else an input that isn't heard line by line is put back. Of one that
    may still be written no more is read than what stands up to the line, and what comes behind follows as it comes."""
    if stat.S_ISREG(os.fstat(0).st_mode):
        return Front(os.pread(0, ENOUGH, os.lseek(0, 0, os.SEEK_CUR)), False)
    if is_heard:
        return Front(up_to_divider(), True)
    if is_coming:
        front = Front(up_to_divider(), False)
        if front.is_whole:
            lead(front.raw)
        return front
    raw = bytearray()
    while len(raw) < ENOUGH and (part := os.read(0, PART)):
        raw += part
    with file_of(bytes(raw)) as document:
        os.dup2(document.fileno(), 0)
    return Front(bytes(raw), False)


def up_to_divider() -> bytes:
    """Standard input up to the line: byte by byte, since what is behind it is the program's."""
    raw = bytearray()
    while len(raw) < ENOUGH and not raw.endswith(b"\n" + DIVIDER) and raw != DIVIDER and (byte := os.read(0, 1)):
        raw += byte
    return bytes(raw)


def lead(front: bytes) -> None:
    """Puts these bytes before what is still to come on standard input."""
    coming = os.dup(0)
    out, into = os.pipe()
    os.dup2(out, 0)
    os.close(out)
    threading.Thread(target=pass_on, args=(front, coming, into), daemon=True).start()


def pass_on(front: bytes, coming: int, into: int) -> None:
    """Writes bytes, and then what comes, until that ends or nobody reads any more."""
    with contextlib.suppress(BrokenPipeError), open(into, "wb", buffering=0) as rest:
        write_all(rest, front)
        while part := os.read(coming, PART):
            write_all(rest, part)


def write_all(rest: IO[bytes], part: bytes) -> None:
    left = memoryview(part)
    while left:
        left = left[rest.write(left) :]


def not_begun(name: str) -> Refused:
    says = f"{name} wasn't begun: the input ended before a line `%%`, so it may be the front of a document"
    return Refused(NOT_BEGUN, says, "put a line `%%` behind the policy; commands follow it, or nothing")
