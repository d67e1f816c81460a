"""A folder for what is gone as a word ends: in memory where there is room for it, since each step of a journal waits for its disk.

What a word that was killed left there is taken away by the next one: each locks its folder as long as it runs."""
import contextlib
import fcntl
import os
import pathlib
import signal
from itertools import chain
from typing import Iterable, Iterator

from launcher.journal import FILE_FAILED, Journal, Refused

PREFIX = "ucon-room-"
MEMORY = "/dev/shm"
PART = 1 << 20


class NoRoom(Refused):
    """A file can't be written where it would be gone then."""

    def __init__(self, sentence: str) -> None:
        super().__init__(FILE_FAILED, sentence, "make room in the folder for what is temporary, or set TMPDIR to another one; nothing was written")


@contextlib.contextmanager
def room(wanted: int) -> Iterator[pathlib.Path]:
    """A folder in which so many bytes are to be written. TMPDIR names another place for it."""
    # A file that grows too large is a fault like others.
    signal.signal(signal.SIGXFSZ, signal.SIG_IGN)
    top = place(wanted)
    clear(top)
    try:
        hidden = top / f".{PREFIX}{os.getpid()}-{os.urandom(4).hex()}"
        hidden.mkdir(0o700)
        file = os.open(hidden, os.O_RDONLY | os.O_CLOEXEC)
        # It has its name only once it is locked, so that nobody takes it away before.
        fcntl.flock(file, fcntl.LOCK_EX)
        made = hidden.rename(hidden.with_name(hidden.name[1:]))
    except OSError as why:
        raise NoRoom(f"no folder can be made in {top}: {why.strerror}") from None
    try:
        yield made
    finally:
        empty(made)
        os.close(file)


def place(wanted: int) -> pathlib.Path:
    if not os.environ.get("TMPDIR") and os.access(MEMORY, os.W_OK | os.X_OK):
        there = os.statvfs(MEMORY)
        if there.f_bavail * there.f_frsize > 2 * wanted:
            return pathlib.Path(MEMORY)
    import tempfile

    return pathlib.Path(tempfile.gettempdir())


def clear(top: pathlib.Path) -> None:
    """Takes away what was left by words that were killed."""
    for left in top.glob(f"{PREFIX}*"):
        with contextlib.suppress(OSError):
            file = os.open(left, os.O_RDONLY | os.O_CLOEXEC | os.O_NOFOLLOW | os.O_DIRECTORY)
            try:
                fcntl.flock(file, fcntl.LOCK_EX | fcntl.LOCK_NB)
                empty(left)
            finally:
                os.close(file)


def empty(folder: pathlib.Path) -> None:
    """Takes a folder away with the files in it, as far as that can be done."""
    with contextlib.suppress(OSError):
        for file in folder.iterdir():
            file.unlink()
        folder.rmdir()


def may(path: str, how: int) -> bool:
    return os.access(path, how, effective_ids=os.access in os.supports_effective_ids)


def is_unwritable(path: str) -> bool:
    """Whether a file is there that this user may read, and not write."""
    return os.path.isfile(path) and may(path, os.R_OK) and not may(path, os.W_OK)


@contextlib.contextmanager
def writable(journal: Journal) -> Iterator[str]:
    """A path at which the program can open a journal: its own, or that of a copy where this user may only read it. The program opens a
    file for writing, also where it writes nothing."""
    if may(journal.name, os.W_OK):
        yield journal.name
        return
    with room(journal.size) as folder:
        yield str(copied(journal, folder, journal.size, b""))


def copied(journal: Journal, folder: pathlib.Path, size: int, end: bytes) -> pathlib.Path:
    """A copy of a journal's first bytes, with other ones behind them."""
    parts = (journal.read(at, min(PART, size - at)) for at in range(0, size, PART))
    return written(folder, journal.name, chain(parts, [end]))


def written(folder: pathlib.Path, name: str, parts: Iterable[bytes]) -> pathlib.Path:
    """A file of these bytes, which are tried in the place of a journal of this name."""
    path = folder / "journal"
    try:
        with open(path, "wb") as file:
            file.writelines(parts)
    except OSError as why:
        raise NoRoom(f"{name} can't be copied to be tried: {why.strerror}") from None
    return path
