"""Typing faults of a policy: the item's text with what is wrong marked, and where that is declared."""
import difflib
from typing import Dict, Iterator, List, Optional, Tuple

from launcher.policy import SIDES, Declared, Item, Ref, declared_in, items_of, refs_of, tokens_of
from launcher.source import Document, Span, policy_end

Declarations = Dict[bytes, Dict[bytes, Declared]]
# The mark of an item, and hints, each with a place that it speaks of.
Said = Tuple[Span, List[Tuple[str, Optional[Span]]]]

SINGULAR = {b"s": "an attribute of subjects", b"o": "an attribute of objects", b"env": "a variable"}


def policy_of(document: Document) -> Tuple[List[Item], Declarations]:
    raw = document.raw[: policy_end(document.raw)]
    items = items_of(tokens_of(raw)).items
    return items, declared_in(items, raw)


def printed(document: Document, item: Item, what: str, said: Said) -> Iterator[str]:
    mark, hints = said
    yield f"{document.place(mark.start)}: {what}\n"
    yield document.text_of(item.span, mark)
    for says, at in hints:
        yield f"hint: {says}{f' (declared at {document.place(at.start)})' if at else ''}\n"


def of_item(document: Document, kind: str, name: Optional[bytes], number: int) -> Iterator[str]:
    items, declared = policy_of(document)
    item = items[number - 1]
    if kind == "twice":
        said = twice(items, item, name or b"")
    elif kind == "no name":
        said = no_name(declared, item, name or b"")
    elif kind == "wrong reader":
        said = wrong_reader(declared, item)
    else:
        said = wrong_kind(declared, item)
    yield from printed(document, item, f"item {number}", said)


def of_right(document: Document, kind: str, name: bytes) -> Iterator[str]:
    items, _ = policy_of(document)
    heading = next(item for item in items if item.kind == "right" and item.right == name)
    own = [item for item in items if item.right == name and item.kind != "right"]
    says = not_core(own) if kind == "not core" else "the ongoing predicates of a right read at most 32 distinct places"
    yield from printed(document, heading, f"right {name.decode()}", (heading.tokens[1].span, [(says, None)]))


def name_token(item: Item):
    """The name that an item brings."""
    return item.tokens[{"attr": 2, "env": 1, "right": 1, "predicate": 2}[item.kind]]


def twice(items: List[Item], item: Item, name: bytes) -> Said:
    mark = name_token(item).span
    if name == b"no_right":
        return mark, [("`no_right` is no label", None)]
    same = (it for it in items if it.kind == item.kind and it.number < item.number and name_token(it).raw == name)
    if item.kind == "predicate":
        same = (it for it in same if it.right == item.right)
    if item.kind == "attr":
        same = (it for it in same if it.tokens[1].raw == item.tokens[1].raw)
    return mark, [(f"there is another `{name.decode()}`", name_token(next(same)).span)]


def spoken(side: bytes, name: bytes) -> str:
    return f"`{side.decode()}.{name.decode()}`"


def no_name(declared: Declarations, item: Item, name: bytes) -> Said:
    ref = next(ref for ref in refs_of(item) if ref.name == name and name not in declared[ref.side])
    others = [side for side in SIDES if name in declared[side]]
    if others:
        hints = [(f"`{name.decode()}` is {SINGULAR[side]}, read as {spoken(side, name)}", declared[side][name].name.span) for side in others]
        return ref.span, hints
    near = difflib.get_close_matches(name.decode(), [it.decode() for it in declared[ref.side]], 1)
    if near:
        there = near[0].encode()
        return ref.span, [(f"a similar name is {spoken(ref.side, there)}", declared[ref.side][there].name.span)]
    how = "env" if ref.side == b"env" else f"attr {ref.side.decode()}"
    return ref.span, [(f"nothing declares {spoken(ref.side, name)}; a declaration is `{how} {name.decode()} : int 0..9 = 0;`", None)]


def declaration(declared: Declarations, ref: Ref) -> Optional[Span]:
    there = declared[ref.side].get(ref.name)
    return there.name.span if there else None


def token_named(item: Item, *words: bytes):
    return next(token for token in item.tokens[3:] if token.raw in words)


def wrong_reader(declared: Declarations, item: Item) -> Said:
    refs = refs_of(item)
    sort = item.tokens[1].raw if item.kind == "predicate" else b""
    attribute = next((ref for ref in refs if ref.side != b"env"), None)
    if sort == b"c" and attribute:
        says = f"a condition (`c`) reads variables alone, an authorisation (`a`) attributes; {spoken(*attribute[:2])} is {SINGULAR[attribute.side]}"
        return attribute.span, [(says, declaration(declared, attribute))]
    variable = next((ref for ref in refs if ref.side == b"env"), None)
    if sort in (b"a", b"") and variable:
        who = "an authorisation (`a`)" if sort else "an update"
        says = f"{who} reads attributes alone, a condition (`c`) variables; {spoken(*variable[:2])} is a variable"
        return variable.span, [(says, declaration(declared, variable))]
    timed = token_named(item, b"lasts", b"every")
    if timed.raw == b"lasts" and sort == b"a":
        return timed.span, [("`lasts` stands in a condition during a use: `on c LABEL: lasts N;`", None)]
    return timed.span, [(f"`{timed.raw.decode()}` counts from the beginning of a use: it stands in an `on` predicate", None)]


def wrong_kind(declared: Declarations, item: Item) -> Said:
    if item.kind in ("attr", "env"):
        says = "a range must not be empty, and a default must be of the kind and in its range"
        return Span(name_token(item).start, item.span.end), [(says, None)]
    hints: List[Tuple[str, Optional[Span]]] = []
    for side, name, _ in dict.fromkeys((*ref[:2], None) for ref in refs_of(item)):
        hints.append((f"{spoken(side, name)} is {declared[side][name].kind.decode()}", declared[side][name].name.span))
    hints.append((RULES[item.kind], None))
    first = item.tokens[3] if item.kind == "predicate" else item.tokens[1]
    return Span(item.tokens[4].start if first.raw == b":" and len(item.tokens) > 4 else first.start, item.span.end - 1), hints


RULES = {
    "predicate": "`=` and `!=` compare two of one kind, `<` `<=` `>` `>=` two integers, `in` a text and a set; `+` `-` `*` are of integers",
    "update": "an update's value has the kind of the attribute that it writes: integers by `+` `-` `*`, a set by `+` or `-` a text",
}


def not_core(own: List[Item]) -> str:
    decides = [item for item in own if item.kind == "predicate" and item.tokens[1].raw in (b"a", b"b")]
    if not decides:
        return "a right with updates has an authorisation (`a`) or an obligation (`b`)"
    return "a right with a `during` update has an authorisation or an obligation that is asked during the use (`on a`, `on b`)"
