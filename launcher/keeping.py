"""What stands around a form that writes a journal: one writer, never below what was told, and what was cut off is kept.

The journal is locked; what was told of it is looked for in it; the program runs, and inherits the lock; then what is told now is written
beside the journal. Of a conversation the replies go to somebody else as they come, so that others are told is written before it begins.
Nothing here changes the journal."""
import os
import pathlib
import signal
import subprocess
from types import FrameType
from typing import IO, List, NamedTuple, Optional, Tuple

from launcher import founding, lock, program
from launcher.bringing import POLICY_ALONE
from launcher.heads import Followed, first_head, follow, start
from launcher.journal import FRESH_MAGIC, LONGEST_FRESH, End, Journal, Refused
from launcher.lock import Lock
from launcher.program import Ended
from launcher.room import is_unwritable, room, writable
from launcher.seal import EMPTY, Front
from launcher.told import ARE, LOST, WERE, Told, meet, near, path_of, read_told, told_of

# The forms that open the journal that is their second word, and write it.
WRITES = ("play", "serve", "board", "live", "point", "converse", "explain")
# The one that makes no step, and the one whose document may still be written.
EXPLAINS, LIVE = "explain", "live"
ACCEPT = "--accept-loss"
# The statuses behind which nothing of the journal was written, and nobody was told a place (docs/errors.md).
UNTOUCHED = (1, 2, 3, 4, 7, 8, 10, 11)
# Those of them behind which `live` may have answered what came before.
MET_LATE = (3, 4, 11)
DISK_FAULT = 6
# Behind which word that stands.
BEHIND_JOURNAL, BEHIND_FILE = "the journal's name", "the policy's file"


def without_accepting(words: List[str]) -> Tuple[List[str], bool]:
    """The words of a form, and whether the word behind its journal accepts a loss."""
    accepts = words[:1] != [] and words[0] in WRITES and words[2:3] == [ACCEPT]
    return ([*words[:2], *words[3:]], True) if accepts else (words, False)


def writes(words: List[str]) -> bool:
    return len(words) > 1 and words[0] in WRITES


def asked(words: List[str]) -> List[str]:
    """The words that the program is given: what holds a conversation does nothing else, and has no word for it."""
    return words[1:] if words[0] == "converse" else words


def run(path_of_program: pathlib.Path, words: List[str], accepts_loss: bool, catches: bool) -> Ended:
    """Runs a form that writes a journal. What is to be said on standard error comes back; what the program says there only where
    `catches` says so, and else it goes out by itself."""
    try:
        held = lock.take(words[1])
        if held is None:
            if words[0] == "converse" and is_device(words[1]):
                # To open it might take forever, and there is nobody who would write it.
                return Ended(DISK_FAULT, b"ucon: disk fault\n")
            # The program says what is wrong with the path.
            return started([str(path_of_program), *asked(words)], None, catches)
        try:
            keeper = Keeper(words[1], held, accepts_loss, words[0] == "converse", is_coming=words[0] == LIVE)
            if words[0] == EXPLAINS and is_unwritable(words[1]):
                return keeper.run_over_copy([str(path_of_program), *words], catches)
            return keeper.run([str(path_of_program), *asked(words)], catches)
        finally:
            held.release()
    except Refused as why:
        return Ended(why.status, why.text().encode())


def is_device(path: str) -> bool:
    """Whether something is there that is neither a file nor a folder."""
    return os.path.exists(path) and not os.path.isfile(path) and not os.path.isdir(path)


class Found(NamedTuple):
    """What a journal was found as before the program opens it: up to where it was followed, what was told, what stands behind, and of
    which front the digest is known. `accepted` is why it would have been refused, where that was accepted."""

    followed: Optional[Followed] = None
    told: Optional[Told] = None
    end: Optional[End] = None
    front: Front = EMPTY
    accepted: str = ""


class Tail(NamedTuple):
    """What stands behind the records of a journal, its gate included, kept beside it."""

    path: str
    at: int
    raw: bytes


class Keeper:
    """One run over a journal that is locked. `tells_others` says that its replies go to somebody else as they come, `behind` where a loss is
    accepted, and `is_coming` that the document may still be written."""

    def __init__(
        self, name: str, held: Lock, accepts_loss: bool, tells_others: bool = False, behind: str = BEHIND_JOURNAL, is_coming: bool = False
    ) -> None:
        self.journal = Journal(name, held.file)
        self.held = held
        self.told_path = path_of(held.path)
        self.accepts_loss = accepts_loss
        self.tells_others = tells_others
        self.behind = behind
        self.is_coming = is_coming
        self.goes_on = f"{ACCEPT} behind {behind} goes on with what is there"
        self.said: List[str] = []

    def say(self, line: str) -> None:
        self.said.append(f"ucon: {self.journal.name}: {line}\n")

    def run(self, words: List[str], catches: bool, source: Optional[IO[bytes]] = None, output: Optional[IO[bytes]] = None) -> Ended:
        """Runs the program over standard input and output, or other files."""
        found = self.looked_at()
        if source is None and self.journal.size <= LONGEST_FRESH:
            refused = self.begin(words)
            if refused:
                return refused
            if self.journal.size > LONGEST_FRESH:
                words = [*words, POLICY_ALONE]
        tail = self.keep_tail(found)
        tells_others = self.tells_others and not found.accepted
        if tells_others:
            self.tell_others(found)
        ended = started(words, self.held.file, catches, source, output)
        if tail:
            self.say_cut(tail)
        if ended.status not in UNTOUCHED or (self.is_coming and ended.status in MET_LATE):
            self.tell(found, ended.status)
        elif tells_others:
            self.put_back(found)
        return Ended(ended.status, ended.errors + "".join(self.said).encode())

    def run_over_copy(self, words: List[str], catches: bool) -> Ended:
        """Runs a form that makes no step over a journal that this user may only read."""
        self.looked_at()
        with writable(self.journal) as path:
            return started([*words[:2], path, *words[3:]], self.held.file, catches)

    @property
    def put_back_hint(self) -> str:
        return f"nothing was written: put a copy back that has them (`ucon copy` makes one); {self.goes_on}"

    # ---- before

    def begin(self, words: List[str]) -> Optional[Ended]:
        """Looks at the document with which the journal begins. How the program ended where it refuses that; refused too where it isn't whole.
        A conversation's policy is read then, so the journal is begun with it alone, and its lines follow under the journal's policy."""
        front = founding.look(self.tells_others, self.is_coming)
        if front.is_whole and not front.is_taken:
            return None
        with program.file_of(front.raw) as document, open(os.devnull, "wb") as nowhere, room(0) as folder:
            if front.is_whole:
                ended = started(words, self.held.file, True, document, nowhere)
                return ended if ended.status else None
            at = 1 if self.tells_others else 2
            ended = started([*words[:at], str(folder / "journal"), *words[at + 1 :]], None, True, document, nowhere)
        if ended.status:
            return ended
        raise founding.not_begun(self.journal.name)

    def looked_at(self) -> Found:
        """What the journal is found as. Refused where it lacks what was told, or no write of the program leaves what stands behind it."""
        try:
            return self.judged()
        except Refused as why:
            if not self.accepts_loss:
                raise
            return self.found_plainly()._replace(accepted=why.sentence)

    def judged(self) -> Found:
        journal, told = self.journal, read_told(self.told_path)
        if journal.size <= LONGEST_FRESH:
            if told and told.is_of_nothing:
                self.say_of_others(told, 0)
            elif told:
                says = "isn't there" if self.held.is_made else "holds no record"
                begins = f"to begin a new journal, take {near(self.told_path)} away, or say {ACCEPT} behind {self.behind}"
                hint = f"put a copy back that has them; {begins}"
                raise Refused(LOST, f"{journal.name} {says}, and {told.place} steps of it were told", hint)
            return Found(None, told)
        try:
            followed, _, loss, front = meet(journal)
        except Refused as why:
            if told:
                raise Refused(LOST, f"{why.sentence}; {told.place} steps of it were told", self.put_back_hint) from None
            # The program says what is wrong with it, and writes nothing.
            return Found()
        if loss:
            raise Refused(LOST, loss.text(journal.name), self.put_back_hint)
        end = journal.end(followed.at)
        strange = end.strange or changed_gate(end, followed, told)
        if strange:
            says = f"{journal.name}: behind {followed.steps} whole steps, at byte {end.at}, stands what no write of the program leaves: {strange}"
            raise Refused(LOST, says, f"nothing was written: put a copy back, or see what wrote there; {self.goes_on}")
        if told:
            self.say_of_others(told, followed.steps)
        return Found(followed, told, end, front)

    def say_of_others(self, told: Told, steps: int) -> None:
        """Says that others were told of steps, and that nobody wrote down which one was the last."""
        if told.others == ARE:
            says = f"a conversation was stopped whose replies others read; {steps - told.place} steps stand behind place {told.place}"
            self.say(f"{says}, where it began: see that all that they were told are there")

    def found_plainly(self) -> Found:
        """What the journal is found as, whatever was told of it."""
        if self.journal.size <= LONGEST_FRESH:
            return Found()
        try:
            followed, _ = follow(self.journal, start(self.journal))
            return Found(followed, None, self.journal.end(followed.at))
        except Refused:
            return Found()

    def keep_tail(self, found: Found) -> Optional[Tail]:
        """Writes what an opening will cut off beside the journal."""
        if not found.end or not found.end.is_torn:
            return None
        raw = self.journal.read(found.end.at, found.end.behind + 1)
        path = free_name(f"{self.held.path}.torn")
        try:
            self.write_beside(path, raw)
        except Refused as why:
            if not self.accepts_loss:
                raise
            self.say(f"what is cut off isn't kept: {why}")
            return None
        return Tail(path, found.end.at, raw)

    def tell_others(self, found: Found) -> None:
        """Writes what was told as a conversation begins, and that others are told from here on."""
        now = Told(0, 0, first_head(FRESH_MAGIC), b"", others=ARE)
        try:
            if found.followed:
                now = told_of(self.journal, found.followed, found.front, ARE)
            self.write_beside(self.told_path, now.text().encode())
        except (Refused, OSError) as why:
            self.say(f"{near(self.told_path)} doesn't say that others are told: {why}")

    # ---- behind

    def put_back(self, found: Found) -> None:
        """Writes what was told before, behind a conversation that told nothing."""
        try:
            if found.told:
                self.write_beside(self.told_path, found.told.text().encode())
            else:
                remove(self.told_path)
        except Refused as why:
            self.say(f"{near(self.told_path)} says that others are told: {why}")

    def say_cut(self, tail: Tail) -> None:
        if self.journal.read(tail.at, len(tail.raw)) == tail.raw:
            # The program didn't open the journal.
            remove(tail.path)
            return
        count = len(tail.raw) - 1
        self.say(f"{count} bytes behind the last whole step, at byte {tail.at}, were cut off, and are kept in {near(tail.path)}")

    def tell(self, found: Found, status: int) -> None:
        """Writes place and head, as the run ended. Its status stays, whatever comes of that."""
        try:
            if found.accepted and os.path.lexists(self.told_path):
                lost = free_name(f"{self.told_path}.lost")
                os.replace(self.told_path, lost)
                self.say(f"went on; what was told before is kept in {near(lost)}")
            now = self.told_now(found, status)
            # A conversation has written that others are told, whatever was found.
            is_stale = self.tells_others or not (found.told and now and now.says_the_same(found.told))
            if now and is_stale:
                self.write_beside(self.told_path, now.text().encode())
        except (Refused, OSError) as why:
            self.say(f"{near(self.told_path)} doesn't say what this run told: {why}")

    def told_now(self, found: Found, status: int) -> Optional[Told]:
        """What was told as the run ended: all that is in the journal. None where that is nothing."""
        if status:
            # A program that was killed may have left something that isn't on the disk yet.
            os.fsync(self.held.file)
        if not self.journal.magic():
            return None
        begins = found.followed or start(self.journal)
        now, _ = follow(self.journal, begins)
        if status == DISK_FAULT and now.records > begins.records:
            # The last one may be the one that failed, of which nobody was told.
            now, _ = follow(self.journal, begins, most=now.records - 1)
        return told_of(self.journal, now, found.front, WERE if self.tells_others else "") if now.records else None

    def write_beside(self, path: str, raw: bytes) -> None:
        """Writes a file whole: beside its place, synced, and then renamed. It may be read by whoever may read the journal."""
        fresh = f"{path}.new"
        try:
            write_whole(fresh, raw, os.fstat(self.held.file).st_mode & 0o777)
            os.replace(fresh, path)
        except OSError as why:
            remove(fresh)
            hint = f"make room in the journal's folder, or see who may write there; {self.goes_on}"
            raise Refused(DISK_FAULT, f"{near(path)} can't be written: {why.strerror}", hint) from None


def changed_gate(end: End, followed: Followed, told: Optional[Told]) -> Optional[str]:
    """The last gate was closed where a run ended, and a later run opens it only behind a whole record."""
    if told and told.records == followed.records and end.gate != 0:
        return f"the gate there was closed as the last run ended, and its byte is 0x{end.gate:02x}"
    return None


def free_name(path: str) -> str:
    """This name, or where it is taken the first one with a number behind it."""
    names = (path if n == 1 else f"{path}.{n}" for n in range(1, 1_000_000))
    return next(name for name in names if not os.path.lexists(name))


def write_whole(path: str, raw: bytes, mode: int) -> None:
    file = os.open(path, os.O_WRONLY | os.O_CREAT | os.O_TRUNC | os.O_CLOEXEC, 0o600)
    try:
        os.fchmod(file, mode)
        view = memoryview(raw)
        while view:
            view = view[os.write(file, view) :]
        os.fsync(file)
    finally:
        os.close(file)


def remove(path: str) -> None:
    try:
        os.unlink(path)
    except OSError:
        pass


# ---- the program


def started(
    words: List[str], kept_open: Optional[int], catches: bool, source: Optional[IO[bytes]] = None, output: Optional[IO[bytes]] = None
) -> Ended:
    """Runs the program, which inherits the lock. A signal that would end this process is passed on to it."""
    files = () if kept_open is None else (kept_open,)
    # The program has no handlers, and ends at each of these that isn't ignored; this process goes on until the program has ended.
    heard = [number for number in (signal.SIGINT, signal.SIGTERM, signal.SIGHUP) if signal.getsignal(number) != signal.SIG_IGN]
    before = {number: signal.getsignal(number) for number in heard}
    # One that comes while the program starts waits, here until it can be passed on, and there until it ends the program.
    mask = signal.pthread_sigmask(signal.SIG_BLOCK, heard)

    def unheard() -> None:
        for number in heard:
            signal.signal(number, signal.SIG_DFL)
        signal.pthread_sigmask(signal.SIG_SETMASK, mask)

    try:
        ran = subprocess.Popen(
            words, stdin=source, stdout=output, stderr=subprocess.PIPE if catches else None, pass_fds=files, preexec_fn=unheard
        )

        def pass_on(number: int, _: Optional[FrameType]) -> None:
            # A terminal gives Ctrl-C to the program, too.
            if number != signal.SIGINT:
                ran.send_signal(number)

        for number in heard:
            signal.signal(number, pass_on)
        signal.pthread_sigmask(signal.SIG_SETMASK, mask)
        errors = ran.communicate()[1] or b""
    finally:
        for number, handler in before.items():
            signal.signal(number, handler)
        signal.pthread_sigmask(signal.SIG_SETMASK, mask)
    return Ended(program.ended_as(ran.returncode), errors)
