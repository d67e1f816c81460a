"""Formulas and expressions of an accepted policy, as trees. What the program accepts is all that is read here; it judges nothing."""
from typing import List, NamedTuple, Tuple, Union

from launcher.policy import SIDES, Token
from launcher.source import Span

COMPARES = ("=", "!=", "<", "<=", ">", ">=", "in")


class Number(NamedTuple):
    value: int


class Literal(NamedTuple):
    """A text, or a set of texts, as it is written without blanks."""

    raw: bytes


class Place(NamedTuple):
    """What is read or written, as `s.credit`."""

    side: str
    name: str

    def __str__(self) -> str:
        return f"{self.side}.{self.name}"


class Size(NamedTuple):
    of: "Expr"


class Sum(NamedTuple):
    """Two expressions joined by `+`, `-` or `*`."""

    sign: str
    left: "Expr"
    right: "Expr"


class Compare(NamedTuple):
    sign: str
    left: "Expr"
    right: "Expr"


class Lasts(NamedTuple):
    ticks: int


class Not(NamedTuple):
    of: "Formula"


class Join(NamedTuple):
    """Formulas joined by `and` or `or`."""

    word: str
    parts: Tuple["Formula", ...]


Expr = Union[Number, Literal, Place, Size, Sum]
Formula = Union[Compare, Lasts, Not, Join]


class Reader:
    """Reads tokens from the left."""

    def __init__(self, tokens: List[Token]):
        self.tokens = tokens
        self.at = 0

    def next(self) -> str:
        return self.tokens[self.at].raw.decode() if self.at < len(self.tokens) else ""

    def take(self) -> str:
        word = self.next()
        self.at += 1
        return word

    def takes(self, *words: str) -> bool:
        """Takes the next word where it is one of these."""
        found = self.next() in words
        self.at += found
        return found

    # ---- formulas

    def formula(self) -> Formula:
        return self.joined("or", lambda: self.joined("and", self.unit))

    def joined(self, word: str, part) -> Formula:
        parts = [part()]
        while self.takes(word):
            parts.append(part())
        return parts[0] if len(parts) == 1 else Join(word, tuple(parts))

    def unit(self) -> Formula:
        if self.takes("not"):
            return Not(self.unit())
        if self.takes("["):
            inner = self.formula()
            self.take()
            return inner
        if self.takes("lasts"):
            return Lasts(int(self.take()))
        left = self.expr()
        return Compare(self.take(), left, self.expr())

    # ---- expressions

    def expr(self) -> Expr:
        return self.chain(("+", "-"), lambda: self.chain(("*",), self.factor))

    def chain(self, signs: Tuple[str, ...], part) -> Expr:
        left = part()
        while self.next() in signs:
            left = Sum(self.take(), left, part())
        return left

    def factor(self) -> Expr:
        token = self.tokens[self.at]
        word = self.take()
        if word == "(":
            inner = self.expr()
            self.take()
            return inner
        if word == "size":
            self.take()
            inner = self.expr()
            self.take()
            return Size(inner)
        if word == "-":
            return Number(-int(self.take()))
        if token.kind == "number":
            return Number(int(word))
        if word == "{":
            return self.texts()
        if token.raw in SIDES:
            self.take()
            return Place(word, self.take())
        return Literal(token.raw)

    def texts(self) -> Literal:
        raw = b"{"
        while self.next() != "}":
            raw += self.take().encode()
        self.take()
        return Literal(raw + b"}")


def places_in(tree: Union[Formula, Expr]) -> List[Place]:
    """What a formula or an expression reads, in written order."""
    if isinstance(tree, Place):
        return [tree]
    if isinstance(tree, Join):
        return [place for part in tree.parts for place in places_in(part)]
    if isinstance(tree, (Not, Size)):
        return places_in(tree.of)
    if isinstance(tree, (Sum, Compare)):
        return places_in(tree.left) + places_in(tree.right)
    return []


# ---- a policy in trees


class Attribute(NamedTuple):
    """What is declared: its range, where it is of integers."""

    place: Place
    range: Tuple[int, int]
    is_int: bool
    span: Span


class Predicate(NamedTuple):
    time: str
    sort: str
    label: str
    formula: Union[Formula, None]
    span: Span
    label_span: Span
    tokens: List[Token]


class Update(NamedTuple):
    time: str
    place: Place
    value: Expr
    span: Span


class Right(NamedTuple):
    name: str
    span: Span
    predicates: List[Predicate]
    updates: List[Update]

    def asks(self, time: str) -> List[Predicate]:
        return [it for it in self.predicates if it.time == time]

    def changes(self, time: str) -> List[Update]:
        return [it for it in self.updates if it.time == time]
