"""`ucon copy JOURNAL NEW`: a copy that is whole at one moment, read back, and put at its place in one go.

It may be made while the journal is written. What counts never changes, so a copy of all records that counted at one moment is a journal."""
import os
import signal
import sys
from typing import Callable, Iterator, List, NamedTuple, NoReturn, Optional

from launcher.heads import Followed
from launcher.journal import FILE_FAILED, NO_JOURNAL, Journal, Refused, open_journal
from launcher.lock import Lock, take
from launcher.output import say_cut_off, write
from launcher.reading import is_path
from launcher.told import meet

PART = 1 << 20


class Asked(NamedTuple):
    path: str
    new: str


def asked_of(words: List[str]) -> Optional[Asked]:
    """What the words ask. None where they are no `copy`."""
    return Asked(*words[1:]) if words[:1] == ["copy"] and len(words) == 3 and all(map(is_path, words[1:])) else None


def run(asked: Asked) -> int:
    """Makes the copy, and prints what an audit says first: how many records and entries it has, and its head."""
    # A file that grows too large is a fault like others.
    signal.signal(signal.SIGXFSZ, signal.SIG_IGN)
    if os.path.lexists(asked.new):
        raise Refused(FILE_FAILED, f"{asked.new} is there already, and was left as it is", "give the copy another name, or take the file away")
    with open_journal(asked.path) as journal:
        found = made(journal, asked.new) if journal.magic() else nothing_in(journal)
        say_cut_off(journal, found.at)
    write(f"records {found.records}\nentries {found.steps}\nhead {found.head.hex()}\n".encode())
    return 0


def nothing_in(journal: Journal) -> NoReturn:
    raise Refused(NO_JOURNAL, f"{journal.name} holds no record yet, and nothing was copied", "look at the path")


def made(journal: Journal, new: str, known: Optional[Followed] = None, before: Callable[[], None] = lambda: None) -> Followed:
    """Writes beside the place, syncs, reads back, and gives the file its name, before which something else may be done. What a copy that
    was killed left there is written anew. Where the journal is known to its end, it isn't followed again."""
    forget_named(f"{new}.part")
    held = take(f"{new}.part")
    if held is None:
        raise Refused(FILE_FAILED, f"{new} can't be made: no file can be written there", "look at the path, and at who may write in that folder")
    try:
        found = filled(journal, held, known)
        read_back(journal, found, held)
        before()
        named(held, new)
    except OSError as why:
        raise Refused(FILE_FAILED, f"{new} wasn't made: {why.strerror}", "make room there, or copy to another disk") from None
    finally:
        if held.is_at_its_path():
            os.unlink(held.path)
        os.close(held.file)
    return found


def forget_named(part: str) -> None:
    """Takes away the name of a part whose file has another one by now: it was given that by a copy that was killed then, and is a journal
    in use, perhaps elsewhere."""
    try:
        if os.lstat(part).st_nlink > 1:
            os.unlink(part)
    except FileNotFoundError:
        pass


def filled(journal: Journal, held: Lock, known: Optional[Followed]) -> Followed:
    """Writes all records that count now, as they are read and followed, and a closed gate behind them. Says so where the journal lacks
    what was told of it. The copy may be read by whoever may read the journal."""
    os.ftruncate(held.file, 0)
    os.fchmod(held.file, os.fstat(journal.file).st_mode & 0o777)
    if known:
        for part in parts_of(known):
            put(held.file, part.start, journal.read(part.start, len(part)))
    found = known or followed_into(journal, held)
    put(held.file, found.at, b"\0")
    os.fsync(held.file)
    return found


def followed_into(journal: Journal, held: Lock) -> Followed:
    """Follows a journal, and writes what is read."""
    put(held.file, 0, journal.magic())
    met = meet(journal, lambda window: put(held.file, window.at, window.raw[: window.gates[-1]]))
    if not met.followed.records:
        nothing_in(journal)
    if met.loss:
        sys.stderr.write(f"ucon: {met.loss.text(journal.name)}; the copy is of what is there\n")
    return met.followed


def parts_of(found: Followed) -> Iterator[range]:
    """The bytes of a journal before the gate to which it was followed, in parts that are read at once."""
    return (range(at, min(at + PART, found.at)) for at in range(0, found.at, PART))


def read_back(journal: Journal, found: Followed, held: Lock) -> None:
    """The copy has the journal's bytes, which don't change any more, up to a gate that is closed in it."""
    if hasattr(os, "posix_fadvise"):
        # So that it is read from the disk, as far as the system does so.
        os.posix_fadvise(held.file, 0, 0, os.POSIX_FADV_DONTNEED)
    copy = Journal(held.path, held.file)
    is_same = all(copy.read(part.start, len(part)) == journal.read(part.start, len(part)) for part in parts_of(found))
    if not is_same or copy.read(found.at, 2) != b"\0":
        raise Refused(FILE_FAILED, f"what was written for the copy of {journal.name} isn't what was read", "look at both disks, and copy again")


def put(file: int, at: int, raw: bytes) -> None:
    view = memoryview(raw)
    while view:
        count = os.pwrite(file, view, at)
        at, view = at + count, view[count:]


def named(held: Lock, new: str) -> None:
    """Gives the file its name, which it gets only where no other file has it."""
    try:
        os.link(held.path, new)
    except FileExistsError:
        raise Refused(FILE_FAILED, f"{new} has come to be meanwhile, and was left as it is", "give the copy another name") from None
    except OSError:
        # A file system without links.
        os.rename(held.path, new)
    folder = os.open(os.path.dirname(os.path.realpath(new)), os.O_RDONLY)
    try:
        os.fsync(folder)
    finally:
        os.close(folder)
