"""A fault of a policy's grammar, with what stands around it, and a hint."""
from typing import List, NamedTuple, Optional

from launcher.policy import Items, Token, items_of, tokens_of
from launcher.source import Document, Span, policy_end


class Hint(NamedTuple):
    """A hint, and another place of the document that it speaks of."""

    says: str
    at: Optional[Span] = None


class Fault(NamedTuple):
    """A fault of the grammar with what stands around it."""

    document: Document
    at: int
    end: int
    before: List[Token]
    items: Items
    token: Token

    @property
    def last(self) -> Optional[Token]:
        return self.before[-1] if self.before else None

    @property
    def is_at_end(self) -> bool:
        return self.at >= self.end

    def is_first_on_line(self, token: Token) -> bool:
        start = self.document.line_start(token.start)
        return self.document.raw[start : token.start].strip(b" \t") == b""


def fault_at(document: Document, at: int) -> Fault:
    end = policy_end(document.raw)
    before = tokens_of(document.raw[:at])
    rest = tokens_of(document.raw[at:end])
    token = rest[0] if rest and rest[0].start == 0 else Token("end", b"", 0)
    return Fault(document, at, end, before, items_of(before), Token(token.kind, token.raw, at))
