"""What was told of a journal, kept beside it in JOURNAL.told, and whether the journal still has it.

The file is text, a word and what it says on each line:

    ucon told 1
    place 20            the last place that somebody was told
    records 21          how many records the head is after
    head 5f1c..         the head after them, 64 digits
    marks 9a03..        of the head after each of them the first 2 bytes, so that the first record that differs can be named
    others are told     another reader is told of what stands behind the head, as it comes; `others were told` once that has ended, and
                        then the place is the last one. A program that hands the replies on itself has no such line
    bytes 315           where the gate behind these records is
    seal 77b1..         by which it is seen at once that the bytes before that gate, and the lines above, are what they were

A journal has what was told where its first so many records have this head, and it has at least so many steps."""
import os
from typing import Callable, Dict, NamedTuple, Optional, Tuple

from launcher.heads import HEAD, MARK, Followed, first_head, follow, start
from launcher.journal import Journal, Refused, Window
from launcher.seal import EMPTY, Front, up_to

# The journal lacks what was told of it, or something that no write of the program leaves stands behind its records.
LOST = 123
FIRST_LINE = "ucon told 1"
# What is said of others: that they are told, and that they were.
ARE, WERE = "are told", "were told"


class Told(NamedTuple):
    """The last place that somebody was told, and the head after so many records. `marks` may be short, or empty; `seal` may be empty, and
    where it isn't the place is that of the head. `others` says whether others are told of a journal, or were; empty is neither."""

    place: int
    records: int
    head: bytes
    marks: bytes
    at: int = 0
    seal: str = ""
    others: str = ""

    @property
    def lines(self) -> str:
        marks = f"marks {self.marks.hex()}\n" if self.marks else ""
        others = f"others {self.others}\n" if self.others else ""
        return f"{FIRST_LINE}\nplace {self.place}\nrecords {self.records}\nhead {self.head.hex()}\n{marks}{others}"

    @property
    def sealed(self) -> str:
        """The lines that a seal is of."""
        return f"{self.lines}bytes {self.at}\n"

    @property
    def followed(self) -> Followed:
        """The journal as it was followed where it is sealed."""
        return Followed(self.at, self.records, self.place, self.head, self.marks)

    @property
    def is_of_nothing(self) -> bool:
        """Whether nobody was told a step: it was written before a journal was begun."""
        return (self.place, self.records) == (0, 0)

    def says_the_same(self, other: "Told") -> bool:
        return (self.records, self.head, self.others) == (other.records, other.head, other.others)

    def text(self) -> str:
        return f"{self.sealed}seal {self.seal}\n" if self.seal else self.lines


def told_of(journal: Journal, followed: Followed, front: Front = EMPTY, others: str = "") -> Told:
    """What is told of a journal that was followed so far, of which a front was read before."""
    told = Told(followed.steps, followed.records, followed.head, followed.marks, followed.at, others=others)
    return told._replace(seal=up_to(journal, told.at, front).sealed(told.sealed))


def path_of(real: str) -> str:
    return f"{real}.told"


def near(path: str) -> str:
    """A companion's path as a person here would write it."""
    found = os.path.relpath(path)
    return path if found.startswith("..") else found


def read_told(path: str) -> Optional[Told]:
    """What a companion file says. None where there is none; refused where it is no such file."""
    try:
        with open(path, encoding="ascii") as file:
            text = file.read()
    except FileNotFoundError:
        return None
    except (OSError, UnicodeDecodeError) as why:
        raise unread(path, str(why)) from None
    lines = text.splitlines()
    said: Dict[str, str] = {word: rest for word, _, rest in (line.partition(" ") for line in lines[1:])}
    if lines[:1] != [FIRST_LINE] or not text.endswith("\n"):
        raise unread(path, f"it doesn't begin with `{FIRST_LINE}`, or has no end")
    try:
        if not HEAD.fullmatch(said["head"]):
            raise ValueError("its head isn't 64 digits")
        head, marks = bytes.fromhex(said["head"]), bytes.fromhex(said.get("marks", ""))
        others = said.get("others", "")
        return Told(int(said["place"]), int(said["records"]), head, marks, int(said.get("bytes", 0)), said.get("seal", ""), others)
    except (KeyError, ValueError) as why:
        raise unread(path, str(why)) from None


def unread(path: str, why: str) -> Refused:
    hint = "put it back from a copy, or go on without it: --accept-loss"
    return Refused(LOST, f"{near(path)}, which keeps what was told of the journal, can't be read: {why}", hint)


# ---- whether it is there


class Loss(NamedTuple):
    """What a journal lacks of what was told: the first record that differs, or those among which it is, and the first step missing."""

    first: int
    last: int
    at: int
    step: int
    place: int

    def text(self, name: str) -> str:
        which = f"record {self.first}" if self.first == self.last else f"one of the records {self.first} to {self.last}"
        missing = self.place - self.step + 1
        steps = f"{missing} of the {self.place} steps that were told {'is' if missing == 1 else 'are'} missing, from step {self.step} on"
        if missing <= 0:
            steps = f"all {self.place} steps that were told are before it"
        return f"{name} isn't what was told: {which}, at byte {self.at}, is the first that differs, and {steps}"


def lacks(journal: Journal, told: Told, followed: Followed, kept: Optional[bytes]) -> Optional[Loss]:
    """What the journal lacks. It was followed to its end, and `kept` is its head after as many records as were told."""
    head = first_head(journal.magic()) if told.records == 0 else kept
    if head == told.head and followed.steps >= told.place:
        return None
    first, last = (followed.records, followed.records) if head == told.head else differing(told, followed)
    before, _ = follow(journal, start(journal), most=first)
    return Loss(first, last, before.at, before.steps + 1, told.place)


def differing(told: Told, followed: Followed) -> Tuple[int, int]:
    """The first record that differs, by the marks of the two; where these don't tell, the records among which it is."""
    both = min(len(told.marks), len(followed.marks)) // MARK
    pairs = ((told.marks[MARK * n : MARK * n + MARK], followed.marks[MARK * n : MARK * n + MARK]) for n in range(both))
    same = next((n for n, (a, b) in enumerate(pairs) if a != b), both)
    if same < both or followed.records == same < told.records:
        return same, same
    return (same if same < told.records else 0), max(min(told.records - 1, followed.records), 0)


def loss_of(journal: Journal) -> Optional[Loss]:
    """What the journal lacks of what was told. Where nothing was told it isn't followed."""
    is_told = os.path.lexists(path_of(os.path.realpath(journal.name)))
    return meet(journal).loss if is_told else None


class Met(NamedTuple):
    """A journal that was followed to its end, what was told of it, and what it lacks of that. Of `front` the digest is known."""

    followed: Followed
    told: Optional[Told]
    loss: Optional[Loss]
    front: Front = EMPTY


def meet(journal: Journal, hear: Optional[Callable[[Window], None]] = None) -> Met:
    """Follows a journal, whose magic stands, to its end, and looks for what was told of it. Who hears is given what was read."""
    told = read_told(path_of(os.path.realpath(journal.name)))
    if told is None or hear or not told.seal or journal.size <= told.at:
        followed, kept = follow(journal, start(journal), told.records if told else 0, hear=hear)
        return Met(followed, told, lacks(journal, told, followed, kept) if told else None)
    front = up_to(journal, told.at)
    if front.sealed(told.sealed) == told.seal:
        # So its records are those that were told.
        return Met(follow(journal, told.followed)[0], told, None, front)
    followed, kept = follow(journal, start(journal), told.records)
    return Met(followed, told, lacks(journal, told, followed, kept))
