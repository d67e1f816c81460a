"""A document as a person sees it: places as lines and columns (both from 1, columns in bytes), and lines with a caret."""
import re
from typing import List, NamedTuple, Optional

# How much of a long line is shown before and behind the mark.
BEFORE, BEHIND = 60, 40
# How much of a long line that stands beside that one.
WIDTH = 120

INVISIBLE = {
    b"\r": "a carriage return",
    b"\t": "a tab",
    b" ": "a space",
    b"\n": "the end of the line",
    b"\xc2\xa0": "a no-break space",
    b"\xef\xbb\xbf": "a byte-order mark",
    b"\xe2\x80\x8b": "a zero-width space",
}


class Span(NamedTuple):
    """Bytes of the document, from the one place up to and not including the other."""

    start: int
    end: int


def shown(raw: bytes) -> str:
    """The bytes as they are shown: what is neither printable ASCII nor a tab by its escape."""
    return "".join(chr(b) if 0x20 <= b < 0x7F or b == 9 else {13: "\\r"}.get(b, f"\\x{b:02x}") for b in raw)


def name_of_byte(raw: bytes) -> Optional[str]:
    """What the bytes begin with, where it can't be seen. None where it can."""
    return next((name for seen, name in INVISIBLE.items() if raw.startswith(seen)), None)


def text_end(raw: bytes, at: int) -> int:
    """Where the line ends that a place is on."""
    end = raw.find(b"\n", at)
    return len(raw) if end < 0 else end


def policy_end(raw: bytes) -> int:
    """Where the policy part ends: at the line `%%`, or with the document."""
    if raw.startswith(b"%%\n") or raw == b"%%":
        return 0
    found = raw.find(b"\n%%\n")
    if found < 0:
        return len(raw) - 2 if raw.endswith(b"\n%%") else len(raw)
    return found + 1


class Document:
    """A document's bytes with its file's name."""

    def __init__(self, name: str, raw: bytes, text: Optional[bytes] = None, front: int = 0):
        self.name = name
        # So many bytes are none of the file's, which begins behind them: a policy that a journal has.
        self.front = front
        # What is looked into, and what is shown of it: the same lines, whose columns are the same.
        self.raw = raw
        self.text = raw if text is None else text

    def part(self, span: "Span") -> "Document":
        """This document with blanks before a passage and nothing behind it: places are the same."""
        blank = re.sub(rb"[^\n]", b" ", self.raw[: span.start])
        return Document(self.name, blank + self.raw[span.start : span.end], self.text, self.front)

    def line_start(self, at: int) -> int:
        return self.raw.rfind(b"\n", 0, at) + 1

    def line_end(self, at: int) -> int:
        return text_end(self.raw, at)

    def line_span(self, number: int) -> Span:
        """The line of this number, from 1. The last one, empty, where there are fewer."""
        start = 0
        for _ in range(number - 1):
            start = self.line_end(start) + 1
        return Span(min(start, len(self.raw)), self.line_end(start))

    def place(self, at: int) -> str:
        line = self.raw.count(b"\n", self.front if at >= self.front else 0, at) + 1
        return f"{self.name}:{line}:{at - self.line_start(at) + 1}"

    def marked(self, mark: Span, what: str = "") -> str:
        """The place, the line, and carets under the mark as far as it is on that line."""
        head = self.place(mark.start) + (f": {what}" if what else "")
        return f"{head}\n{self.under(mark)}"

    def under(self, mark: Span) -> str:
        start, end = self.line_start(mark.start), text_end(self.text, mark.start)
        left = max(start, mark.start - BEFORE)
        right = min(end, max(mark.start + 1, min(mark.end, mark.start + BEHIND)) + BEHIND)
        before = shown(self.text[left : mark.start])
        within = shown(self.text[mark.start : min(mark.end, mark.start + BEHIND, end)])[:BEHIND] or " "
        line = ".. " * (left > start) + shown(self.text[left:right]) + " .." * (right < end)
        blank = "".join("\t" if c == "\t" else " " for c in ".. " * (left > start) + before)
        return f"  {line}\n  {blank}{'^' * len(within)}\n"

    def text_of(self, whole: Span, mark: Span) -> str:
        """All lines of a longer passage, with carets under the mark."""
        out: List[str] = []
        at = self.line_start(whole.start)
        while at < max(whole.end, whole.start + 1):
            end = self.line_end(at)
            has_mark = at <= mark.start <= end
            out.append(self.under(mark) if has_mark else f"  {shown(self.raw[at : min(end, at + WIDTH)])}{' ..' * (end > at + WIDTH)}\n")
            at = end + 1
        return "".join(out)
