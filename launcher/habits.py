"""Faults of a policy's grammar that come from the habits of other languages, or from a word that is nearly the right one."""
from typing import Callable, List, Optional

from launcher.fault import Fault, Hint
from launcher.near import near
from launcher.policy import DECLARATIONS, PREDICATES, UPDATES, Item
from launcher.source import Span

SORTS = (b"a", b"b", b"c")
# What other languages call a kind, and what there is in its place.
KINDS = {
    **dict.fromkeys(("bool", "boolean", "flag"), "there are no truth values: `int 0..1` serves, asked by `= 1`"),
    **dict.fromkeys(("string", "str", "char", "varchar"), "a text's kind is `text`"),
    **dict.fromkeys(("integer", "number", "long", "short", "float", "double", "decimal"), "a number's kind is `int LOW..HIGH`, as `int 0..100`"),
    **dict.fromkeys(("list", "array", "strings"), "a kind for several texts is `set`"),
}
ALL_KINDS = "a kind is `int LOW..HIGH`, `text` or `set`"
DEFAULTS = {
    b"int": "the default of an `int` is a number of its range",
    b"text": 'the default of a `text` is one between quotes, as `"none"` or `""`',
    b"set": 'the default of a `set` is one, as `{}` or `{"a", "b"}`',
}
TRUTHS = {"true": "1", "yes": "1", "on": "1", "false": "0", "no": "0", "off": "0"}


def colon_at(item: Item) -> int:
    """Where the colon of a declaration stands among its tokens."""
    return 3 if item.kind == "attr" else 2


def text_of(fault: Fault, start: int, end: int) -> str:
    return fault.document.raw[start:end].decode(errors="replace")


def written_at_once(fault: Fault) -> Optional[Hint]:
    """`s.credit -= 1` and `s.credit++`."""
    item, signs = fault.items.open_item, fault.document.raw[fault.at : fault.at + 2]
    if not item or item.kind != "update" or len(item.tokens) != 4 or signs[:1] not in (b"+", b"-", b"*"):
        return None
    place = text_of(fault, item.tokens[1].start, item.tokens[3].end)
    sign = signs[:1].decode()
    if signs[1:] not in (b"=", b"+", b"-"):
        return None
    return Hint(f"an update is written in full, as `{item.tokens[0].raw.decode()} {place} = {place} {sign} 1;`")


def kind_of_a_declaration(fault: Fault) -> Optional[Hint]:
    item = fault.items.open_item
    if not item or item.kind not in ("attr", "env"):
        return None
    at, count, name = colon_at(item), len(item.tokens), fault.token.raw.decode(errors="replace")
    if count == at and fault.token.raw == b"=":
        return Hint(f"`:` and a kind are missing behind the name: {ALL_KINDS}")
    if count == at + 1 and fault.token.kind == "word":
        similar = near(name, ("int", "text", "set"))
        return Hint(KINDS.get(name) or (f"a similar kind is `{similar}`" if similar else ALL_KINDS))
    if count == at + 2 and item.tokens[-1].raw == b"int" and fault.token.kind != "number" and fault.token.raw != b"-":
        return Hint("an `int` has a range, as `int 0..100`", Span(item.tokens[-1].start, item.tokens[-1].end))
    return None


def default_of_a_declaration(fault: Fault) -> Optional[Hint]:
    item = fault.items.open_item
    if not item or item.kind not in ("attr", "env") or len(item.tokens) < colon_at(item) + 2:
        return None
    kind = item.tokens[colon_at(item) + 1].raw
    if fault.token.raw == b";" and not any(token.raw == b"=" for token in item.tokens):
        return Hint(f"a default stands behind the kind, as `= 0`; {DEFAULTS.get(kind, ALL_KINDS)}")
    if fault.token.kind == "word" and item.tokens[-1].raw == b"=":
        truth = TRUTHS.get(fault.token.raw.decode()) if kind == b"int" else None
        says = DEFAULTS.get(kind, ALL_KINDS)
        return Hint(f"{says}; there are no truth values, so `= {truth}`" if truth else f"{says}: there is no `{fault.token.raw.decode()}`")
    return None


def label_of_a_predicate(fault: Fault) -> Optional[Hint]:
    item = fault.items.open_item
    if not item or item.kind != "predicate":
        return None
    time, words = item.tokens[0].raw.decode(), [token.raw for token in item.tokens]
    if len(words) == 1 and fault.token.raw not in SORTS and fault.token.kind == "word":
        sorts = "`a` (an authorisation), `b` (an obligation) or `c` (a condition)"
        return Hint(f"behind `{time}` stands {sorts}, and then a label, as `{time} a LABEL: ..;`")
    sort = words[1].decode() if len(words) > 1 else ""
    form = f"`{time} {sort} LABEL: ..;`"
    if len(words) == 2 and fault.token.kind != "word":
        return Hint(f"a label is missing behind `{sort}`: {form}", Span(item.tokens[1].end, item.tokens[1].end + 1))
    if len(words) == 3 and fault.token.raw != b":":
        reads = words[2] in (b"s", b"o", b"env", b"not", b"lasts", b"size", b"done", b"within", b"every")
        if reads:
            return Hint(f"a label with a colon is missing behind `{sort}`: {form}", Span(item.tokens[1].end, item.tokens[1].end + 1))
        return Hint(f"behind the label `{words[2].decode()}` stands a colon: {form}", Span(item.tokens[2].end, item.tokens[2].end + 1))
    return None


def misspelt_word(fault: Fault) -> Optional[Hint]:
    """A word that begins an item, or an obligation, and is nearly one that may."""
    if fault.token.kind != "word":
        return None
    item = fault.items.open_item
    known = (PREDICATES + UPDATES if fault.items.open_right else DECLARATIONS + (b"right",)) if not item else ()
    if item and item.kind == "predicate" and len(item.tokens) == 4 and item.tokens[1].raw == b"b":
        known = (b"done", b"within", b"every")
    similar = near(fault.token.raw.decode(), [word.decode() for word in known])
    return Hint(f"a similar word that may stand here is `{similar}`") if similar else None


RULES: List[Callable[[Fault], Optional[Hint]]] = [
    kind_of_a_declaration,
    default_of_a_declaration,
    label_of_a_predicate,
    misspelt_word,
]
