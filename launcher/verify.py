"""`ucon verify JOURNAL [--head FILE]`: the program's `audit` over a journal, with a head that was kept; what stands behind the end; and
whether the journal has what was told of it."""
import os
import pathlib
import re
import sys
from typing import List, NamedTuple, Optional

from launcher.asking import ask
from launcher.journal import FILE_FAILED, Journal, Refused, open_journal
from launcher.output import say_cut_off, write
from launcher.reading import is_path
from launcher.told import ARE, LOST, meet, near, path_of

# A head as `copy`, `audit` and `verify` print it, and companion files keep it.
RECORDS = re.compile(r"^records (0|[1-9][0-9]{0,19})$", re.M)
DIGITS = re.compile(r"^head ([0-9a-f]{64})$", re.M)
# How much of such a file is looked at.
ENOUGH = 1 << 20


class Asked(NamedTuple):
    path: str
    head: Optional[str]


class Head(NamedTuple):
    """A head that was kept: after how many records, and its digits."""

    records: str
    digits: str


def asked_of(words: List[str]) -> Optional[Asked]:
    """What the words ask. None where they are no `verify`."""
    if words[:1] != ["verify"] or len(words) < 2 or not is_path(words[1]):
        return None
    if len(words) == 2:
        return Asked(words[1], None)
    return Asked(words[1], words[3]) if len(words) == 4 and words[2] == "--head" and words[3] != "" else None


def head_in(file: str) -> Head:
    """The head that a file keeps. Refused where it keeps none."""
    try:
        with open(file, encoding="ascii", errors="replace") as text:
            raw = text.read(ENOUGH)
    except OSError as why:
        raise Refused(FILE_FAILED, f"{file} can't be read: {why.strerror}", "name a file with what `ucon copy` or `ucon verify` printed") from None
    records, digits = RECORDS.search(raw), DIGITS.search(raw)
    if records is None or digits is None or int(records[1]) >= 2**64:
        hint = "a line `records N` and a line `head` with 64 digits 0 to 9, a to f are wanted, as `ucon copy` and `ucon verify` print them"
        raise Refused(FILE_FAILED, f"{file} keeps no head", hint)
    return Head(records[1], digits[1])


def run(path_of_program: pathlib.Path, asked: Asked) -> int:
    """Prints what the audit says, and two lines more. The status is that of the first thing that is wrong."""
    kept = head_in(asked.head) if asked.head else None
    with open_journal(asked.path) as journal:
        text = ask(path_of_program, journal, "audit", *(kept or ()))
        found = wrong_in(journal)
        write(text + f"behind {found.behind}\ntold {found.told}\n".encode())
    wrong = list(found.wrong)
    if kept and b"\nextends no\n" in text:
        wrong.insert(0, f"{asked.path} doesn't go on from the head in {asked.head}, which is after {kept.records} records")
    for sentence in wrong:
        sys.stderr.write(f"ucon: {sentence}\n")
    if wrong:
        sys.stderr.write("hint: the journal was changed, cut, or put back from an older copy: put a copy back that has what is missing\n")
    if found.unread:
        # As a word that writes says of the same file.
        sys.stderr.write(found.unread.text())
    return LOST if wrong or found.unread else 0


class Found(NamedTuple):
    """What the launcher sees of a journal beside the audit: how many bytes are behind its end, whether it has what was told, sentences on
    what is wrong, and why its companion can't be read."""

    behind: int
    told: str
    wrong: List[str]
    unread: Optional[Refused] = None


def wrong_in(journal: Journal) -> Found:
    end = journal.end(journal.counted()[1])
    wrong = []
    if end.strange:
        wrong.append(f"{journal.name}: behind the last whole step, at byte {end.at}, stands what no write of the program leaves: {end.strange}")
    elif end.is_torn:
        say_cut_off(journal, end.at)
    companion = path_of(os.path.realpath(journal.name))
    try:
        # The audit has followed it already.
        met = meet(journal) if os.path.lexists(companion) else None
    except Refused as why:
        if why.status != LOST:
            raise
        return Found(end.behind, "unread", wrong, why)
    if met is None or met.told is None:
        sys.stderr.write(f"ucon: {near(companion)} isn't there, so nobody knows what was told\n")
        return Found(end.behind, "none", wrong)
    if met.told.others == ARE:
        says = f"others are told of it, or were until a conversation was stopped: place {met.told.place} needn't be the last"
        sys.stderr.write(f"ucon: {journal.name}: {says}\n")
    return Found(end.behind, "no" if met.loss else "yes", [*wrong, met.loss.text(journal.name)] if met.loss else wrong)
