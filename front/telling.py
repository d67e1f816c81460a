"""JOURNAL.told, kept as the places are told.

Before a reply is handed on, its place is written in the file, in place, so that a process that is killed leaves it. The head is written at
times, and as the monitor ends; then the file is written whole, synced, and renamed. The place stands in a fixed width for that. There is no
seal, which would be of one place."""
import os

from launcher.heads import Followed, follow, start
from launcher.journal import Journal, Refused
from launcher.keeping import Keeper, remove, write_whole
from launcher.told import Told

WIDTH = 19


def text_with_room(told: Told) -> bytes:
    """The companion's text, with room for any place."""
    return told.text().replace(f"\nplace {told.place}\n", f"\nplace {told.place:0{WIDTH}d}\n", 1).encode()


class Telling:
    """What was told of a journal. Its calls but `note` take a while; one of them runs at a time."""

    def __init__(self, keeper: Keeper, followed: Followed | None) -> None:
        self.keeper = keeper
        self.place = 0
        self.fault = ""
        self._followed = followed or start(keeper.journal)
        self._file: int | None = None
        self._offset = 0

    @property
    def journal(self) -> Journal:
        return self.keeper.journal

    def note(self, place: int) -> None:
        """This place is told now."""
        if place <= self.place:
            return
        self.place = place
        if self._file is not None:
            try:
                os.pwrite(self._file, b"%0*d" % (WIDTH, place), self._offset)
            except OSError as why:
                self.fault = f"{self.keeper.told_path} doesn't say what is told: {why.strerror}"

    def follow_on(self) -> tuple[bytes, Followed]:
        """The text with the head behind the last place that was told. It may run in a thread of its own."""
        place, followed = self.place, self._followed
        now, _ = follow(self.journal, followed)
        while now.steps > place:
            # What was added since isn't told yet, and needn't be on the disk.
            now, _ = follow(self.journal, followed, most=now.records - (now.steps - place))
        fresh = f"{self.keeper.told_path}.new"
        raw = text_with_room(Told(max(place, now.steps), now.records, now.head, now.marks))
        write_whole(fresh, raw, os.fstat(self.keeper.held.file).st_mode & 0o777)
        return raw, now

    def put(self, raw: bytes, followed: Followed) -> None:
        """Gives what was written its name, with the place as it is told by now."""
        fresh = f"{self.keeper.told_path}.new"
        file = os.open(fresh, os.O_WRONLY | os.O_CLOEXEC)
        offset = raw.index(b"\nplace ") + len(b"\nplace ")
        os.pwrite(file, b"%0*d" % (WIDTH, self.place), offset)
        os.replace(fresh, self.keeper.told_path)
        self.close()
        self._file, self._offset, self._followed = file, offset, followed

    def is_behind(self) -> bool:
        """Whether steps were told since the head was written."""
        return self._followed.steps < self.place

    def begin(self, place: int) -> None:
        """The monitor is ready with so many steps, all of them on the disk."""
        self.place = place
        self.write()

    def write(self) -> None:
        try:
            self.put(*self.follow_on())
        except (OSError, Refused) as why:
            remove(f"{self.keeper.told_path}.new")
            self.fault = f"{self.keeper.told_path} doesn't say what is told: {why}"

    def close(self) -> None:
        if self._file is not None:
            os.close(self._file)
            self._file = None
