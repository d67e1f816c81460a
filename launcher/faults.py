"""What stands behind the program's line of a fault: the place, the text with a caret, and a hint."""
import re
from typing import Iterator

from launcher import amended, script, syntax, typing_faults
from launcher.source import Document

# The statuses of a refused policy and of a refused script.
STATUSES = (2, 3)

SYNTAX = re.compile(rb"ucon: policy: (unknown byte|unexpected|too long|too deep|too many) at (\d+)\n")
ITEM = re.compile(rb"ucon: policy: (twice|no name|wrong reader|wrong kind)(?: (\w+))? at item (\d+)\n")
RIGHT = re.compile(rb"ucon: policy: (not core|too many cells) (\w+)(?: \d+)?\n")
LINE = re.compile(rb"ucon: script: ([a-z ]+) at line (\d+)\n")


def parts(said: bytes, document: Document, judge: amended.Judge) -> Iterator[str]:
    """What a person needs beside the program's line. Nothing where the line names no place."""
    found = LINE.fullmatch(said)
    if found:
        yield from of_line(document, found[1].decode(), int(found[2]), judge)
    else:
        yield from of_policy(said, document, 0)


def of_policy(said: bytes, document: Document, start: int) -> Iterator[str]:
    """The same of a policy that begins at this place of the document."""
    if found := SYNTAX.fullmatch(said):
        yield from syntax.explained(document, found[1].decode(), start + int(found[2]))
    elif found := ITEM.fullmatch(said):
        yield from typing_faults.of_item(document, found[1].decode(), found[2], int(found[3]))
    elif found := RIGHT.fullmatch(said):
        yield from typing_faults.of_right(document, found[1].decode(), found[2])


def of_line(document: Document, kind: str, number: int, judge: amended.Judge) -> Iterator[str]:
    inner = "".join(amended.explained(document, number, judge, of_policy)) if kind == "bad word" else ""
    yield inner or "".join(script.explained(document, kind, number))
