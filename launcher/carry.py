"""`ucon carry JOURNAL NEW`: a fresh journal that goes on where another one is, without its past.

It is made of commands with their replies, in a folder that is gone behind it. The program runs them all as it opens that, and tells what
stands in both journals; where that is the same, the new file is put at its place, whole. The old journal is locked meanwhile, and stays."""
import os
import pathlib
import signal
import sys
from itertools import chain, count
from typing import List, NamedTuple, Optional

from launcher import backup, carried, program
from launcher.carried import Plan
from launcher.heads import Followed, head_of
from launcher.in_force import in_force
from launcher.journal import DAMAGED, FILE_FAILED, Journal, Refused, open_journal
from launcher.keeping import remove, write_whole
from launcher.lock import take
from launcher.output import write
from launcher.pointed import OPEN, State
from launcher.reading import is_path
from launcher.room import room, written
from launcher.standing import standing
from launcher.told import LOST, meet, path_of, told_of

# The journal wasn't carried.
NOT_CARRIED = 121
FIRST_LINE = "ucon carried 1\n"
FAULT = "nothing was written; this is a fault of `carry`, and worth a report"


class Asked(NamedTuple):
    path: str
    new: str

    @property
    def companion(self) -> str:
        """Where the old journal's head is kept, and the numbers."""
        return f"{self.new}.carried"


def asked_of(words: List[str]) -> Optional[Asked]:
    """What the words ask. None where they are no `carry`."""
    is_one = len(words) == 3 and words[0] == "carry" and all(map(is_path, words[1:]))
    return Asked(words[1], words[2]) if is_one else None


def run(path_of_program: pathlib.Path, asked: Asked) -> int:
    # A file that grows too large is a fault like others.
    signal.signal(signal.SIGXFSZ, signal.SIG_IGN)
    hold_free(asked)
    open_journal(asked.path).__exit__()
    held = take(asked.path)
    if held is None:
        raise Refused(FILE_FAILED, f"{asked.path} can't be opened", "look at the path")
    with program.ended_by_signals():
        try:
            made(path_of_program, Journal(asked.path, held.file), asked)
        finally:
            held.release()
    return 0


def hold_free(asked: Asked) -> None:
    """No file stands where one is to be made, but for a companion that a carry left that was stopped."""
    if os.path.lexists(asked.new):
        raise Refused(FILE_FAILED, f"{asked.new} is there already, and was left as it is", "give the new journal another name, or take the file away")
    if os.path.lexists(path_of(asked.new)):
        says = f"{path_of(asked.new)} is there, which tells of a journal of that name that is gone"
        raise Refused(FILE_FAILED, says, "give the new journal another name, or take the companion away")
    if os.path.lexists(asked.companion) and not front_of(asked.companion).startswith(FIRST_LINE.encode()):
        raise Refused(FILE_FAILED, f"{asked.companion} is there already, and was left as it is", "give the new journal another name")


def front_of(path: str) -> bytes:
    try:
        with open(path, "rb") as file:
            return file.read(len(FIRST_LINE))
    except OSError:
        return b""


def made(path_of_program: pathlib.Path, journal: Journal, asked: Asked) -> None:
    old = standing(path_of_program, journal).state
    followed = followed_whole(journal)
    policy = in_force(journal).text if old.policy is None else old.policy
    try:
        plan = carried.plan(policy, old)
    except carried.Refusal as why:
        hint = "nothing was written; an `amend` that takes out what isn't used makes room"
        raise Refused(NOT_CARRIED, f"{journal.name} can't be carried: {why}", hint) from None
    unnamed = sorted({it.action for it in old.acts} - set(carried.named_actions(policy)))
    if unnamed:
        sys.stderr.write(f"ucon: carried too, though no obligation names them any more: {', '.join(unnamed)}\n")
    text, payloads = text_of(followed, old, plan), plan.payloads()
    raw = carried.journal_of(payloads)
    with room(len(raw)) as folder:
        path = str(written(folder, asked.new, [raw]))
        os.chmod(path, os.fstat(journal.file).st_mode & 0o777)
        with open_journal(path) as new:
            hold_same(journal.name, old, tried(path_of_program, new), plan)
            put_at_its_place(new, head_of(new.magic(), payloads), asked, text)
    write(text.encode())


def followed_whole(journal: Journal) -> Followed:
    """The journal's head. Refused where it lacks what was told of it, or ends as no write leaves it."""
    met = meet(journal)
    if met.loss:
        hint = "nothing was written: put a copy back that has them, or let `ucon play JOURNAL --accept-loss` go on with what is there first"
        raise Refused(LOST, met.loss.text(journal.name), hint)
    end = journal.end(met.followed.at)
    if end.strange:
        says = f"{journal.name}: behind {met.followed.steps} whole steps, at byte {end.at}, stands what no write of the program leaves: {end.strange}"
        raise Refused(LOST, says, "nothing was written: put a copy back, or see what wrote there")
    return met.followed


def tried(path_of_program: pathlib.Path, new: Journal) -> State:
    """What stands in the new journal. The program runs each of its records, and refuses one that it would have answered otherwise."""
    try:
        return standing(path_of_program, new).state
    except Refused as why:
        if why.status != DAMAGED:
            raise
        raise Refused(NOT_CARRIED, f"the program refuses what was made: {why.sentence}", FAULT) from None


def hold_same(name: str, old: State, new: State, plan: Plan) -> None:
    wrong = list(carried.differences(old, new, plan))
    if wrong:
        says = f"what was made isn't what is in {name}: other {', '.join(wrong)}"
        raise Refused(NOT_CARRIED, says, FAULT)


def text_of(followed: Followed, old: State, plan: Plan) -> str:
    """What is printed, and kept in the companion behind its first line."""
    closed = sum(number for state, number in old.counts.items() if state not in OPEN)
    lines = [f"records {followed.records}\n", f"entries {followed.steps}\n", f"head {followed.head.hex()}\n", f"closed {closed}\n"]
    lines += [f"waiting {number}\n" for part in old.of("requesting") for number in part.numbers]
    return "".join(lines) + "session %d %d\n" * len(plan.numbers) % tuple(chain.from_iterable(zip(plan.numbers, count(1))))


def put_at_its_place(new: Journal, found: Followed, asked: Asked, text: str) -> None:
    """Copies the journal to its place. Its companion comes first: the journal never stands without the numbers of its uses."""
    mode = os.fstat(new.file).st_mode & 0o777
    try:
        backup.made(new, asked.new, found, lambda: put_beside(asked.companion, FIRST_LINE + text, mode))
    except BaseException:
        if not os.path.lexists(asked.new):
            remove(asked.companion)
        raise
    try:
        put_beside(path_of(asked.new), told_of(new, found).text(), mode)
    except OSError as why:
        sys.stderr.write(f"ucon: {asked.new} is there, and its {path_of(asked.new)} can't be written: {why.strerror}\n")


def put_beside(path: str, text: str, mode: int) -> None:
    """Writes a file whole, and then gives it its name."""
    fresh = f"{path}.new"
    try:
        write_whole(fresh, text.encode(), mode)
        os.replace(fresh, path)
    except OSError:
        remove(fresh)
        raise
