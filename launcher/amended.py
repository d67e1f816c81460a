"""Faults inside the policy of an `amend`: the program judges it alone, and the place is that of the script's line."""
import subprocess
from typing import Callable, Iterator, Optional

from launcher.policy import TOKEN
from launcher.source import Document, Span

AMEND = b"amend "
# How long the program may take for one policy, in seconds. It takes a few milliseconds.
LONGEST = 20

# What the program says of a policy that is the whole of a document.
Judge = Callable[[bytes], bytes]
# What stands behind the program's line of a fault: of the line and the document. The third is how far the policy's places lie behind.
Explain = Callable[[bytes, Document, int], Iterator[str]]


def judge_of(path_of_program: str) -> Judge:
    """Judges by a program's `check`."""

    def judge(policy: bytes) -> bytes:
        words, quiet = [path_of_program, "check"], subprocess.DEVNULL
        return subprocess.run(words, input=policy, stdout=quiet, stderr=subprocess.PIPE, timeout=LONGEST, check=False).stderr

    return judge


def policy_span(document: Document, number: int) -> Optional[Span]:
    """Where the policy of this line's amendment stands. None where the line is another command."""
    line = document.line_span(number)
    is_one = document.raw.startswith(AMEND, line.start)
    return Span(line.start + len(AMEND), line.end) if is_one else None


def explained(document: Document, number: int, judge: Judge, explain: Explain) -> Iterator[str]:
    """The first fault of the policy of this line's amendment. Nothing where there is none."""
    span = policy_span(document, number)
    if span is None:
        return
    said = judge(document.raw[span.start : span.end])
    if not said.startswith(b"ucon: policy: "):
        return
    yield f"the policy of line {number} alone: {said.decode()}"
    yield from explain(said, document.part(span), span.start)
    yield from comment_hint(document, span)


def comment_hint(document: Document, span: Span) -> Iterator[str]:
    """Where a comment begins in the policy of an amendment, it takes the rest of the line."""
    comment = next((m for m in TOKEN.finditer(document.raw[span.start : span.end]) if m.group().startswith(b"#")), None)
    if comment is None:
        return
    mark = Span(span.start + comment.start(), span.end)
    if document.raw[span.start : mark.start].strip(b" \t"):
        yield "hint: from this `#` on all is a comment, up to the end of the line:\n"
    else:
        yield "hint: all of this policy is a comment, up to the end of the line, so that it is empty and leaves no right:\n"
    yield document.marked(mark)
