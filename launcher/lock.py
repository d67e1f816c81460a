"""One writer for a journal: a lock of the file itself (`flock`), which the program inherits and holds until it ends.

The file is locked and no companion of it, so that two names of one file are one lock, `flock JOURNAL COMMAND` takes part, and nothing is
left behind by a process that was killed. Who holds it the kernel says, in /proc: it can't be out of date."""
import fcntl
import os
import stat
import sys
from typing import List, NamedTuple, Optional

from launcher.journal import Refused

# Another process writes the journal.
IN_USE = 122


class Lock(NamedTuple):
    """A file that this process holds open and locked. `is_made` says that it wasn't there before."""

    path: str
    file: int
    is_made: bool

    def is_at_its_path(self) -> bool:
        """Whether the locked file is the one that stands at the path."""
        return is_same(self.path, self.file)

    def release(self) -> None:
        """Lets go. A file that was made for the lock alone, and is empty still, goes too."""
        if self.is_made and os.fstat(self.file).st_size == 0 and self.is_at_its_path():
            os.unlink(self.path)
        os.close(self.file)


def is_same(path: str, file: int) -> bool:
    try:
        return os.path.samestat(os.stat(path), os.fstat(file))
    except FileNotFoundError:
        return False


def take(path: str) -> Optional[Lock]:
    """Locks the journal at a path, which is made empty where it isn't there. Refused where another process has it. None where there is no
    file and none can be made, or it is a folder or a device: what is wrong then, the program says."""
    real = os.path.realpath(path)
    while True:
        found = opened(real)
        if found is None:
            return None
        try:
            fcntl.flock(found.file, fcntl.LOCK_EX | fcntl.LOCK_NB)
        except BlockingIOError:
            refused = in_use(path, found.file)
            os.close(found.file)
            raise refused from None
        except OSError as why:
            sys.stderr.write(f"ucon: {path} can't be locked here ({why.strerror}): see that nothing else writes it\n")
        if found.is_at_its_path():
            return found
        # Whoever held it before took the file away.
        os.close(found.file)


def opened(real: str) -> Optional[Lock]:
    """The file, opened as far as that is possible: a lock needs no leave to write."""
    for how, is_made in ((os.O_RDWR, False), (os.O_RDWR | os.O_CREAT | os.O_EXCL, True), (os.O_RDWR, False), (os.O_RDONLY, False)):
        try:
            file = os.open(real, how | os.O_CLOEXEC | os.O_NONBLOCK, 0o666)
        except OSError:
            # Not there, there already, or not to be opened so: the next way is tried.
            continue
        if stat.S_ISREG(os.fstat(file).st_mode):
            return Lock(real, file, is_made)
        os.close(file)
        return None
    return None


# ---- who holds it


def in_use(path: str, file: int) -> Refused:
    found = holders(file)
    who = "another process" if not found else f"process {found[0]}" if len(found) == 1 else f"processes {', '.join(map(str, found))}"
    hint = "wait until it has ended, or end it; a journal has one writer at a time, and words that only read it take no lock"
    return Refused(IN_USE, f"{path} is in use by {who}", hint)


def holders(file: int) -> List[int]:
    """The processes that hold a file's lock: those that inherited it, which may outlive the one that took it; where none of them can be
    seen, as those of another user, the one that took it."""
    return sorted(pid for pid in map(int, filter(str.isdigit, os.listdir("/proc"))) if holds(pid, file)) or takers(file)


def holds(pid: int, file: int) -> bool:
    try:
        for name in os.listdir(f"/proc/{pid}/fd"):
            if os.path.samestat(os.stat(f"/proc/{pid}/fd/{name}"), os.fstat(file)) and "FLOCK" in read(f"/proc/{pid}/fdinfo/{name}"):
                return True
    except OSError:
        # Another user's, or it has ended by now.
        pass
    return False


def takers(file: int) -> List[int]:
    """By /proc/locks, whose lines have the process, and the device and number of the file."""
    number = os.fstat(file).st_ino
    lines = (line.split() for line in read("/proc/locks").splitlines() if "FLOCK" in line and "->" not in line)
    return [int(words[4]) for words in lines if words[5].rpartition(":")[2] == str(number) and int(words[4]) > 0]


def read(path: str) -> str:
    try:
        with open(path, encoding="utf-8") as text:
            return text.read()
    except OSError:
        return ""
