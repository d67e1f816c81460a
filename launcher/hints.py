"""What stands behind what the program said: hints by its status, for a document that can be read again. Where none is found there is none."""
import pathlib
import re
from typing import Iterator, List

from launcher import amended, faults, journals, replies
from launcher.program import Ended
from launcher.source import Document

# The forms that run a script's lines.
RUN_LINES = ("trial", "play", "serve", "board", "live")
OTHER_POLICY = re.compile(rb"ucon: other policy at (\d+)\n")


def behind(path_of_program: pathlib.Path, words: List[str], ended: Ended, name: str, raw: bytes, front: int = 0) -> str:
    """What a person needs beside the program's line, and beside its replies. Hints are guesses, and nothing of them may fail a run."""
    try:
        return "".join(parts(path_of_program, words, ended, Document(name, raw, front=front)))
    except Exception:  # pylint: disable=broad-except
        # The program's line has been said. Where a hint can't be found, as in a file that was changed meanwhile, there is none.
        return ""


def parts(path_of_program: pathlib.Path, words: List[str], ended: Ended, document: Document) -> Iterator[str]:
    journal = journals.journal_of(words)
    if ended.status in faults.STATUSES:
        exchanged = journals.journal_as_document(words, document)
        if exchanged:
            yield exchanged
        else:
            if document.front and b"\n%%\n" in document.raw[document.front - 1 :]:
                yield f"hint: {document.name} is a document, and a script is wanted: the policy is the journal's\n"
            yield from faults.parts(ended.errors, document, amended.judge_of(str(path_of_program)))
    elif ended.status == 0 and words[0] in RUN_LINES:
        yield from replies.hints(document)
    elif journal and ended.status in (6, 8):
        yield from of_journal(journal, ended.status)
    elif journal and (found := OTHER_POLICY.fullmatch(ended.errors)):
        yield from journals.other_policy(journal, document, int(found[1]))


def behind_conversation(words: List[str], status: int) -> str:
    """What a person needs behind a conversation, whose input isn't looked at."""
    try:
        return "".join(of_journal(words[1], status))
    except Exception:  # pylint: disable=broad-except
        return ""


def of_journal(path: str, status: int) -> Iterator[str]:
    """What keeps a file from being opened, or from being a journal."""
    if status == 6:
        yield from journals.disk_fault(path)
    elif status == 8:
        yield from journals.not_a_journal(path)
