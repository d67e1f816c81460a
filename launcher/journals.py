"""What a person needs where a journal can't be opened, or isn't one, or has another policy. It only reads, and judges nothing."""
import os
import pathlib
import re
import stat
from typing import Iterator, List, NamedTuple, Optional

from launcher.policy import tokens_of
from launcher.source import Document, Span, policy_end, shown

MAGICS = (b"UCONJR01", b"UCONJR02")
# Where the policy's text begins, behind the magic, a gate and a length.
POLICY_AT = 13
FORMS = ("play", "serve", "board", "live", "point", "converse", "audit", "report", "explain")
# How much of a file is looked at, and of a line shown.
ENOUGH, WIDTH = 1 << 17, 100


def journal_of(words: List[str]) -> Optional[str]:
    """The journal that these words name."""
    return words[1] if len(words) > 1 and words[0] in FORMS else None


def head_of(path: str) -> bytes:
    try:
        with open(path, "rb") as file:
            return file.read(ENOUGH)
    except OSError:
        return b""


def is_journal(raw: bytes) -> bool:
    return raw[:8] in MAGICS


def is_document(raw: bytes) -> bool:
    """Whether a file looks like a policy, perhaps with a script."""
    return re.match(rb"(?:\s*(?:#[^\n]*\n)?)*(?:attr|env|right|%%)\b", raw) is not None or b"\n%%\n" in raw or raw.startswith(b"%%\n")


# ---- a journal as the document, and the reverse


def journal_as_document(words: List[str], document: Document) -> Optional[str]:
    """The hint where a journal came on standard input. None where it didn't."""
    if not is_journal(document.raw):
        return None
    named = journal_of(words)
    if named and is_document(head_of(named)):
        told = " ".join([words[0], document.name, *words[2:]])
        return f"hint: {document.name} is a journal and {named} a document; they are exchanged: {told} < {named}\n"
    told = " ".join([words[0], document.name, *words[2:]]) if named else f"play {document.name}"
    return f"hint: {document.name} is a journal, and a document is wanted: {told} < DOCUMENT\n"


def not_a_journal(path: str) -> Iterator[str]:
    raw = head_of(path)
    if is_document(raw):
        yield f"hint: {path} is a document, which comes on standard input; the word behind the form names the file that keeps the history,\n"
        yield "hint: and is made where it isn't there, as in play door.journal < door.ucon\n"
    elif raw and not is_journal(raw):
        yield f"hint: {path} begins with `{shown(raw[:8])}`, and a journal with `UCONJR02`: name another file\n"


# ---- another policy


class Line(NamedTuple):
    """A line of a text, by its number from 1."""

    number: int
    raw: bytes


def policy_in(raw: bytes) -> Optional[bytes]:
    """The policy that a journal began with. None where it isn't whole."""
    length = int.from_bytes(raw[9:POLICY_AT], "big")
    policy = raw[POLICY_AT : POLICY_AT + length]
    return policy if is_journal(raw) and len(policy) == length else None


def line_at(raw: bytes, at: int) -> Line:
    start, end = raw.rfind(b"\n", 0, at) + 1, raw.find(b"\n", at)
    return Line(raw.count(b"\n", 0, at) + 1, raw[start : len(raw) if end < 0 else end])


def other_policy(path: str, document: Document, at: int) -> Iterator[str]:
    """The line of the document that differs first, the journal's line there, and whether they differ in what they say."""
    there = policy_in(head_of(path))
    here = document.raw[: policy_end(document.raw)]
    if there is None or here == there:
        return
    yield document.marked(Span(at, at + 1), "the policy ends here" if at >= len(here) else "")
    if at >= len(there):
        yield f"hint: the policy of {path} ends there, behind its line {len(there.splitlines())}\n"
    else:
        line = line_at(there, at)
        yield f"hint: line {line.number} of the policy of {path} is:\n  {shown(line.raw[:WIDTH])}{' ..' * (len(line.raw) > WIDTH)}\n"
    if [token.raw for token in tokens_of(here)] == [token.raw for token in tokens_of(there)]:
        yield "hint: both say the same, and differ in comments and blanks alone; a journal is played under its own policy to the byte\n"
    else:
        yield "hint: a journal is played under the policy that it began with, to the byte; `amend` in the script puts another one in force\n"


# ---- a disk fault


def disk_fault(path: str) -> Iterator[str]:
    """What keeps the file from being opened or written, as far as that can be seen."""
    try:
        says = reason(pathlib.Path(path))
    except OSError as why:
        says = f"{path}: {why.strerror}"
    if says:
        yield f"hint: {says}\n"


def reason(path: pathlib.Path) -> Optional[str]:
    for folder in reversed(path.parents):
        if not folder.exists():
            return f"there is no folder {folder}: mkdir -p {path.parent} makes it"
        if not folder.is_dir():
            return f"{folder} is no folder but a file, so nothing can stand in it: name another place"
    if path.is_dir():
        return f"{path} is a folder, and a journal is a file: name one in it, as {path / 'door.journal'}"
    if path.exists() and not stat.S_ISREG(path.stat().st_mode):
        return f"{path} is no plain file: name another one"
    return not_allowed(path) or no_room(path)


def not_allowed(path: pathlib.Path) -> Optional[str]:
    if not path.exists():
        says = f"there is no file {path} yet, and this user may not make one in {path.parent}"
        may = os.access(path.parent, os.W_OK | os.X_OK)
        return None if may else f"{says}: look at its rights (ls -ld {path.parent}), or name another place"
    lacks = [word for word, right in (("read", os.R_OK), ("write", os.W_OK)) if not os.access(path, right)]
    return f"this user may not {' and '.join(lacks)} {path}: look at its rights (ls -l {path})" if lacks else None


def no_room(path: pathlib.Path) -> Optional[str]:
    there = os.statvfs(path.parent)
    if there.f_flag & os.ST_RDONLY:
        return f"{path.parent} lies on a disk that is mounted read-only"
    if there.f_bavail == 0:
        return f"the disk of {path.parent} is full (df {path.parent})"
    return None
