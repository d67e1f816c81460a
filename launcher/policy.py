"""A policy's text in tokens and items, for marking a place in it. It judges nothing: the program does."""
import re
from typing import Dict, List, NamedTuple, Optional

from launcher.source import Span

TOKEN = re.compile(
    rb"(?P<blank>[ \t\n]+|#[^\n]*)|(?P<word>[a-z][a-z0-9_]*)|(?P<number>[0-9]+)|(?P<text>\"[ !#-~]*\"?)"
    rb"|(?P<symbol>\.\.|!=|<=|>=|[:;,.=<>+*{}()\[\]-])|(?P<other>.)",
    re.S,
)
SIDES = {b"s": "subjects", b"o": "objects", b"env": "the environment"}
DECLARATIONS = (b"attr", b"env")
PREDICATES = (b"pre", b"on")
UPDATES = (b"before", b"during", b"after_end", b"after_revoke")


class Token(NamedTuple):
    kind: str
    raw: bytes
    start: int

    @property
    def end(self) -> int:
        return self.start + len(self.raw)

    @property
    def span(self) -> Span:
        return Span(self.start, self.end)


def tokens_of(raw: bytes) -> List[Token]:
    found = (Token(m.lastgroup or "other", m.group(), m.start()) for m in TOKEN.finditer(raw))
    return [token for token in found if token.kind != "blank"]


def one_line(policy: bytes) -> bytes:
    """The same tokens on one line: a space where blanks and comments stood."""
    parts = [(m.lastgroup == "blank", m.group()) for m in TOKEN.finditer(policy)]
    return re.sub(rb"\0+", b" ", b"".join(b"\0" if is_blank else raw for is_blank, raw in parts)).strip(b" ")


class Item(NamedTuple):
    """An item of a policy, numbered from 1 in written order: `attr`, `env`, `right` (its heading), `predicate` or `update`."""

    number: int
    kind: str
    right: bytes
    tokens: List[Token]
    is_closed: bool

    @property
    def span(self) -> Span:
        return Span(self.tokens[0].start, self.tokens[-1].end)

    def word(self, at: int) -> Optional[Token]:
        return self.tokens[at] if at < len(self.tokens) else None


class Items(NamedTuple):
    items: List[Item]
    # The heading of the right that is open behind the last token.
    open_right: Optional[Item]

    @property
    def open_item(self) -> Optional[Item]:
        return self.items[-1] if self.items and not self.items[-1].is_closed else None


def kind_of(first: Token, in_right: bool) -> str:
    if in_right:
        return "update" if first.raw in UPDATES else "predicate"
    return first.raw.decode() if first.raw in DECLARATIONS else "right"


def items_of(tokens: List[Token]) -> Items:
    """The items of a policy, or of the front of one."""
    items: List[Item] = []
    right: Optional[Item] = None
    at = 0
    while at < len(tokens):
        if right and tokens[at].raw == b"}":
            right, at = None, at + 1
            continue
        kind = kind_of(tokens[at], right is not None)
        ends = b"{" if kind == "right" else b";"
        end = next((n for n in range(at, len(tokens)) if tokens[n].raw == ends), None)
        own = tokens[at:] if end is None else tokens[at : end + 1]
        name = right.right if right else own[1].raw if kind == "right" and len(own) > 1 else b""
        items.append(Item(len(items) + 1, kind, name, own, end is not None))
        if kind == "right" and end is not None:
            right = items[-1]
        at += len(own)
    return Items(items, right)


class Ref(NamedTuple):
    """A place that is read or written, as `s.credit`."""

    side: bytes
    name: bytes
    span: Span


def refs_of(item: Item) -> List[Ref]:
    if item.kind not in ("predicate", "update"):
        return []
    three = zip(item.tokens, item.tokens[1:], item.tokens[2:])
    return [Ref(a.raw, c.raw, Span(a.start, c.end)) for a, b, c in three if a.raw in SIDES and b.raw == b"." and c.kind == "word"]


class Declared(NamedTuple):
    name: Token
    kind: bytes


def declared_in(items: List[Item], raw: bytes) -> Dict[bytes, Dict[bytes, Declared]]:
    """What is declared on each side, with its kind as it is written."""
    found: Dict[bytes, Dict[bytes, Declared]] = {side: {} for side in SIDES}
    for item in items:
        if item.kind not in ("attr", "env"):
            continue
        side, at = (item.tokens[1].raw, 2) if item.kind == "attr" else (b"env", 1)
        equal = next(token for token in item.tokens if token.raw == b"=")
        kind = raw[item.tokens[at + 1].end : equal.start].strip()
        found.setdefault(side, {}).setdefault(item.tokens[at].raw, Declared(item.tokens[at], kind))
    return found
