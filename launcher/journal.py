"""Reads journals by docs/journal-format.md, and never writes: records in order, where the whole ones end, and what stands behind that.

Other words stand on this: a `Journal` is an open file, `walk` gives its records from any place on, and `end` says what the walk left."""
import os
import re
import stat
import struct
from typing import Iterator, List, NamedTuple, Optional, Tuple, Union

MAGICS = {b"UCONJR01": 1, b"UCONJR02": 2}
# What a journal begins with that is made now.
FRESH_MAGIC = b"UCONJR02"
# A journal whose making was stopped has at most so many bytes.
LONGEST_FRESH = 9
FIRST_GATE = 8
LONGEST_PAYLOAD = 16_777_215
# The most that a write of several records leaves behind a closed gate; a write of one leaves at most that record.
LONGEST_WRITE = 1 << 20
POINT = b"point "
# How much of the file is read at once: what fits a processor's cache is read in three quarters of the time.
WINDOW = 1 << 16

PUT_BACK = "put a copy back (`ucon copy` makes one)"

# The statuses of the program that these ends have (docs/errors.md).
FILE_FAILED, DAMAGED, NO_JOURNAL = 6, 7, 8


class Refused(Exception):
    """Why a word can't go on: the status, a sentence, and what to do."""

    def __init__(self, status: int, sentence: str, hint: str = "") -> None:
        super().__init__(sentence)
        self.status = status
        self.sentence = sentence
        self.hint = hint

    def text(self) -> str:
        return f"ucon: {self.sentence}\n" + (f"hint: {self.hint}\n" if self.hint else "")


class Damaged(Refused):
    """A record that counts and is wrong, by its number from 0 and the place of its gate."""

    def __init__(self, name: str, number: int, at: int, why: str) -> None:
        hint = "put a copy back that is right (`ucon copy` makes one); a disk that changed one byte may change others"
        super().__init__(DAMAGED, f"{name}: damaged record {number} at {at}: {why}", hint)
        self.number = number
        self.at = at


def no_policy(name: str) -> Damaged:
    """Record 0 isn't a policy that the program accepts: whoever brings it with a document brings what the journal has."""
    return Damaged(name, 0, FIRST_GATE, "it is no policy that is accepted")


# ---- records


def gates_in(raw: bytes) -> List[int]:
    """Where the gates stand in these bytes, which begin with one: those of the records that are whole in them, and the one behind."""
    head, size, at = struct.Struct(">BI").unpack_from, len(raw), 0
    found = [0]
    try:
        while True:
            gate, length = head(raw, at)
            at += 5 + length
            if gate != 1 or at >= size:
                return found
            found.append(at)
    except struct.error:
        # Not even a length stands behind the last gate.
        return found


class Window(NamedTuple):
    """Whole records as they lie in the file: the place of the first one's gate, the bytes from there on, and where in these bytes the
    gates stand, that behind the last record included."""

    at: int
    raw: bytes
    gates: List[int]

    def payloads(self) -> List[bytes]:
        raw, gates = self.raw, self.gates
        return [raw[a + 5 : b] for a, b in zip(gates, gates[1:])]

    def records(self) -> Iterator[Tuple[int, bytes]]:
        """Each record by the place of its gate, and its payload."""
        return ((self.at + gate, payload) for gate, payload in zip(self.gates, self.payloads()))


class Step(NamedTuple):
    """A step: its place in the history, whose command it is, the command's line and the reply's."""

    place: int
    client: int
    command: bytes
    reply: bytes


class Checkpoint(NamedTuple):
    """A checkpoint: the number of the steps before it, and its text."""

    place: int
    text: bytes


class Policy(NamedTuple):
    """Record 0: the text of the policy that the journal began with."""

    text: bytes


class Record(NamedTuple):
    """A record with its number from 0, the place of its gate, and what it says."""

    number: int
    at: int
    says: Union[Policy, Step, Checkpoint]


STEP = re.compile(rb"([0-9]|[1-5][0-9]|6[0-3]) ([^\n]+)\n((?:ok|permitted|denied|waiting|ended)(?: [^\n]+)?)")


def step_of(payload: bytes, place: int) -> Optional[Step]:
    """The step that a payload is. None where it has not a step's form; whether it is the right one, the program says."""
    found = STEP.fullmatch(payload)
    return Step(place, int(found[1]), found[2], found[3]) if found else None


# ---- the file


class End(NamedTuple):
    """What stands at the first gate whose record doesn't count: the gate's place and byte, how many bytes are behind it, and how many
    of these the record there has, its next gate included, by its length; None where not even a length is whole."""

    at: int
    gate: int
    behind: int
    wanted: Optional[int]

    @property
    def is_torn(self) -> bool:
        """Whether an opening cuts something off."""
        return self.behind > 0

    @property
    def has_whole(self) -> bool:
        """Whether the record behind the gate is whole, so that the gate alone says that it doesn't count."""
        return self.wanted is not None and self.wanted <= self.behind

    @property
    def strange(self) -> Optional[str]:
        """Why no write of the program leaves this, even one that was killed or stopped by a crash. None where one may have left it."""
        if not self.is_torn:
            return None
        if self.gate == 1 and self.has_whole:
            # It was added since the walk.
            return None
        if self.gate == 1:
            return "its gate is open, and the file ends within the record"
        if self.gate != 0 and self.has_whole:
            return f"its gate is neither open nor closed (0x{self.gate:02x}), and the record behind it is whole"
        is_front = self.wanted is not None and self.behind <= self.wanted <= LONGEST_PAYLOAD + 5
        if self.behind > LONGEST_WRITE and not is_front:
            return f"the {self.behind:,} bytes behind it are more than a write leaves"
        return None


class Journal:
    """A file that is open for reading, with the name by which a person knows it."""

    def __init__(self, name: str, file: int) -> None:
        self.name = name
        self.file = file

    def __enter__(self) -> "Journal":
        return self

    def __exit__(self, *_: object) -> None:
        os.close(self.file)

    @property
    def size(self) -> int:
        return os.fstat(self.file).st_size

    def read(self, at: int, count: int) -> bytes:
        """Up to so many bytes from a place on; fewer only at the file's end."""
        parts: List[bytes] = []
        while count > 0:
            try:
                part = os.pread(self.file, count, at)
            except OSError as why:
                raise Refused(FILE_FAILED, f"{self.name} can't be read at byte {at}: {why.strerror}", "look at the disk") from None
            if not part:
                break
            parts.append(part)
            at, count = at + len(part), count - len(part)
        return parts[0] if len(parts) == 1 else b"".join(parts)

    def magic(self) -> bytes:
        """The file's first 8 bytes. Empty where it is a journal whose making was stopped, which has at most 9; refused where it is no
        journal of a version that is known."""
        front = self.read(0, LONGEST_FRESH + 1)
        if len(front) <= LONGEST_FRESH:
            return b""
        magic = front[:FIRST_GATE]
        if magic in MAGICS:
            return magic
        if magic[:6] == b"UCONJR" and magic[6:].isdigit():
            says = f"{self.name} is a journal of version {int(magic[6:])}, and versions 1 and 2 are known"
            raise Refused(NO_JOURNAL, says, "use the program that wrote it, or one that is newer than that")
        hint = "look at the path: a journal begins with UCONJR01 or UCONJR02"
        if b"%%\n" in self.read(0, 1 << 16):
            hint = "this seems to be a document: the words name a journal, and a document comes on standard input"
        raise Refused(NO_JOURNAL, f"{self.name} is not a journal", hint)

    def version(self) -> int:
        """1 or 2; 2 too where the file is to be made anew."""
        return MAGICS.get(self.magic(), 2)

    def windows(self, at: int = FIRST_GATE, number: int = 0) -> Iterator[Window]:
        """The records that count from a gate on, the first of which has this number, as many at once as are read at once.

        Another call may go on at the gate behind the last of them. What counts was on the disk before its gate was opened, so records
        that are added meanwhile come whole or not at all."""
        while True:
            raw = self._window(at, number)
            if not raw:
                return
            gates = gates_in(raw)
            yield Window(at, raw, gates)
            at, number = at + gates[-1], number + len(gates) - 1

    def walk(self, at: int = FIRST_GATE, number: int = 0) -> Iterator[Tuple[int, bytes]]:
        """The same records one by one: the place of each one's gate, and its payload."""
        for window in self.windows(at, number):
            yield from window.records()

    def counted(self) -> Tuple[int, int]:
        """How many records count, and where the gate behind them is."""
        number, at = 0, FIRST_GATE
        for window in self.windows() if self.magic() else ():
            number, at = number + len(window.gates) - 1, window.at + window.gates[-1]
        return number, at

    def _window(self, at: int, number: int) -> bytes:
        """What is read from this gate on: at least the record there, with its next gate. Empty where that doesn't count."""
        window = self.read(at, WINDOW)
        if len(window) < 6 or window[0] != 1:
            return b""
        wanted = int.from_bytes(window[1:5], "big") + 6
        if wanted - 6 > LONGEST_PAYLOAD:
            if at + wanted > self.size:
                return b""
            raise Damaged(self.name, number, at, f"it has {wanted - 6:,} bytes, more than a record may have")
        if wanted > len(window):
            window += self.read(at + len(window), wanted - len(window))
        return window if wanted <= len(window) else b""

    def end(self, at: int) -> End:
        """What stands at a gate at which a walk ended."""
        front = self.read(at, 5)
        if not front:
            hint = "somebody cut the file while it was read: see whether another program writes it"
            raise Refused(FILE_FAILED, f"{self.name} ends before byte {at}", hint)
        wanted = int.from_bytes(front[1:], "big") + 5 if len(front) == 5 else None
        return End(at, front[0], max(self.size - at - 1, 0), wanted)

    def records(self) -> Iterator[Record]:
        """Each record with what it says. One that isn't of its form is refused; whether it is right, the program says."""
        has_points = self.version() > 1
        place = 0
        for number, (at, payload) in enumerate(self.walk() if self.magic() else ()):
            if number == 0:
                yield Record(0, at, Policy(payload))
            elif has_points and payload.startswith(POINT):
                yield Record(number, at, Checkpoint(place, payload))
            else:
                place += 1
                step = step_of(payload, place)
                if step is None:
                    raise Damaged(self.name, number, at, "it has not the form of a step")
                yield Record(number, at, step)


def open_journal(path: str) -> Journal:
    """Opens a file for reading alone. Refused where that isn't possible, or it is no file."""
    try:
        file = os.open(path, os.O_RDONLY | os.O_CLOEXEC | os.O_NONBLOCK)
    except OSError as why:
        raise unopened(path, why) from None
    if not stat.S_ISREG(os.fstat(file).st_mode):
        os.close(file)
        raise Refused(FILE_FAILED, *no_file(path))
    return Journal(path, file)


def no_record(journal: Journal, behind: str = "") -> Refused:
    """Why a word can't go on over a journal without records, and what to do."""
    sentence = f"{journal.name} holds no record yet{behind}"
    if journal.size > LONGEST_FRESH and journal.end(FIRST_GATE).strange:
        return Refused(NO_JOURNAL, f"{sentence}: it ends within record 0", f"the file was cut: {PUT_BACK}")
    return Refused(NO_JOURNAL, sentence, begins(journal.name, "begins it"))


def begins(path: str, does: str) -> str:
    """What to do where no journal is. Where others were told of one, a document is refused there."""
    beside = f"{path}.told"
    is_told = os.path.lexists(f"{os.path.realpath(path)}.told")
    return f"{beside} tells of a journal that was there: {PUT_BACK}" if is_told else f"`ucon play {path} < DOCUMENT` {does}"


def no_file(path: str) -> Tuple[str, str]:
    if os.path.isdir(path):
        return f"{path} is a folder", "name the journal's file in it"
    return f"{path} is no regular file", "a journal is a file on a disk"


def unopened(path: str, why: OSError) -> Refused:
    """Why a file couldn't be opened, and what to do."""
    folder = os.path.dirname(path) or "."
    if isinstance(why, FileNotFoundError) and not os.path.isdir(folder):
        return Refused(FILE_FAILED, f"{path} isn't there: there is no folder {folder}", "look at the path")
    if isinstance(why, FileNotFoundError):
        return Refused(FILE_FAILED, f"{path} isn't there", f"look at the path; {begins(path, 'makes a journal')}")
    if isinstance(why, NotADirectoryError):
        return Refused(FILE_FAILED, f"{path} isn't there: a part of the path is a file", "look at the path")
    if isinstance(why, IsADirectoryError):
        return Refused(FILE_FAILED, *no_file(path))
    if isinstance(why, PermissionError):
        return Refused(FILE_FAILED, f"{path} may not be opened by this user", "run it as the journal's owner, or ask for the permission")
    return Refused(FILE_FAILED, f"{path} can't be opened: {why.strerror}", "look at the disk")
