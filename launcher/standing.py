"""What stands in a journal, told by the program over a copy, which is gone then.

The program opens the copy, and adds a checkpoint to it: the state behind the last step. An opening runs each record, but none before a
checkpoint; so of a journal that has one, the program's `audit` goes first. Where there can be no checkpoint, its `report` tells the state."""
import mmap
import pathlib
from typing import NamedTuple, Optional, Tuple

from launcher import pointed
from launcher.asking import answered, ask, first_policy, held
from launcher.heads import points_in
from launcher.journal import FILE_FAILED, POINT, Journal, open_journal
from launcher.pointed import State
from launcher.room import NoRoom, copied, room

# The program ends so where a checkpoint would be longer than a record may be.
TOO_LARGE = 13
# A longer journal isn't copied, and no checkpoint is longer than this.
LONGEST_COPY, LONGEST_POINT = 1 << 28, 1 << 24


class Standing(NamedTuple):
    """The state of a journal, how many records count, and the place of the gate behind them; and the program's report, where it told the
    state."""

    state: State
    records: int
    end: int
    text: bytes = b""

    def report(self) -> bytes:
        """What `report` prints of the journal."""
        from launcher import reported

        return self.text or reported.text_of(self.state).encode()


def standing(path_of_program: pathlib.Path, journal: Journal) -> Standing:
    """What stands in a journal. Refused where a record of it is wrong, with the program's own line."""
    policy = first_policy(journal)
    try:
        found = by_checkpoint(path_of_program, journal, policy) if journal.version() > 1 and journal.size <= LONGEST_COPY else None
    except NoRoom:
        found = None
    return found or by_report(path_of_program, journal)


def by_checkpoint(path_of_program: pathlib.Path, journal: Journal, policy: bytes) -> Optional[Standing]:
    """What a checkpoint of a copy tells. None where it would be too large."""
    size = journal.size
    with room(size + LONGEST_POINT) as folder:
        path = str(copied(journal, folder, size, b""))
        points = checkpoints_in(path)
        if points:
            held(journal.name, "audit", answered(path_of_program, ["audit", path], policy))
        said = answered(path_of_program, ["point", path], policy)
        if said.status == TOO_LARGE:
            return None
        if said.status == FILE_FAILED:
            raise NoRoom(f"{journal.name} can't be tried on a copy: {said.line}")
        held(journal.name, "point", said)
        with open_journal(path) as copy:
            at, text = last_record(copy, size - 1)
    state = pointed.read(text)
    return Standing(state, 1 + state.entries + points, at)


def by_report(path_of_program: pathlib.Path, journal: Journal) -> Standing:
    """What the program's `report` tells, which needs no room."""
    from launcher import reported

    text = ask(path_of_program, journal, "report")
    return Standing(reported.read(text), *journal.counted(), text)


def checkpoints_in(path: str) -> int:
    """How many checkpoints a journal has."""
    with open_journal(path) as journal:
        with mmap.mmap(journal.file, 0, access=mmap.ACCESS_READ) as raw:
            if raw.find(POINT) < 0:
                return 0
        return sum(points_in(window.payloads()) for window in journal.windows())


def last_record(journal: Journal, likely: int) -> Tuple[int, bytes]:
    """The last record of a journal that was mended: the place of its gate, and its payload. It is likely here, where nothing was cut off."""
    front = journal.read(likely, 5)
    length = int.from_bytes(front[1:], "big")
    if front[:1] == b"\1" and likely + 5 + length + 1 == journal.size:
        return likely, journal.read(likely + 5, length)
    at, payload = 0, b""
    for window in journal.windows():
        at, payload = window.at + window.gates[-2], window.payloads()[-1]
    return at, payload
