"""Lines of a script that will be refused for a slip: a right and an object exchanged, a value of another kind, a name that is nearly one.

They are read off the document: its policy, and those of its amendments. What an earlier run left in a journal isn't known."""
from typing import Dict, Iterator, List, NamedTuple, Optional, Set, Tuple

from launcher.amended import AMEND, comment_hint
from launcher.near import near
from launcher.policy import SIDES, declared_in, items_of, tokens_of
from launcher.script import FORMS, GREATEST, Word, fits, is_integer, words_of
from launcher.source import Document, Span, policy_end

# How many places are shown, and how many lines looked at.
MOST, LINES = 3, 20_000


class Known(NamedTuple):
    """What some policy of the document declares: its rights, and by side and name the kinds."""

    rights: Set[str]
    kinds: Dict[Tuple[str, str], Set[str]]

    def names(self, side: str) -> List[str]:
        return [name for of, name in self.kinds if of == side]


class Slip(NamedTuple):
    """A line that will be refused: what it is about, and hints."""

    mark: Span
    says: List[str]


def lines_of(document: Document) -> Iterator[Tuple[int, bytes]]:
    """Each line of the script with its place, the first of them."""
    at = policy_end(document.raw)
    for n, line in enumerate(document.raw[at:].split(b"\n")[: LINES + 1]):
        if n:
            yield at, line
        at += len(line) + 1


def known_of(document: Document) -> Known:
    found = Known(set(), {})
    policies = [document.raw[: policy_end(document.raw)], *(line[len(AMEND) :] for _, line in lines_of(document) if line.startswith(AMEND))]
    for raw in policies:
        items = items_of(tokens_of(raw)).items
        found.rights.update(item.right.decode() for item in items if item.kind == "right")
        for side, names in declared_in(items, raw).items():
            for name, declared in names.items():
                found.kinds.setdefault((side.decode(), name.decode()), set()).add(" ".join(declared.kind.decode().split()))
    return found


def hints(document: Document) -> Iterator[str]:
    """The first lines that will be refused for a slip, each with its place."""
    known = known_of(document)
    found = [slip for at, line in lines_of(document) for slip in [slip_of(known, line, at)] if slip]
    for slip in found[:MOST]:
        yield document.marked(slip.mark)
        yield from (f"hint: {says}\n" for says in slip.says)
    if len(found) > MOST:
        yield f"hint: {len(found) - MOST} more such lines\n"
    yield from comments(document)


def slip_of(known: Known, line: bytes, at: int) -> Optional[Slip]:
    first = line.split(b" ")[0].decode(errors="replace")
    if first not in ("try", "set", "value", "env"):
        return None
    words = words_of(line, at, len(FORMS[first].split()) + 1)
    if len(words) != len(FORMS[first].split()) + 1:
        return None
    return of_try(known, words) if first == "try" else of_name(known, first, words)


def marked(word: Word, *says: str) -> Slip:
    return Slip(Span(word.at, word.at + len(word.raw)), list(says))


def of_try(known: Known, words: List[Word]) -> Optional[Slip]:
    right, thing = words[2].raw.decode(), words[3].raw.decode()
    if right in known.rights:
        return None
    form = "the form is `try SUBJECT RIGHT OBJECT`"
    if thing in known.rights:
        return marked(words[2], f"`no right`: the policy has a right `{thing}` and none `{right}`, so right and object seem exchanged; {form}")
    similar = near(right, known.rights)
    return marked(words[2], f"`no right`: the policy has no right `{right}`; a similar one is `{similar}`") if similar else None


def of_name(known: Known, first: str, words: List[Word]) -> Optional[Slip]:
    side = "env" if first == "env" else words[1].raw.decode()
    named = words[1] if first == "env" else words[3]
    name = named.raw.decode()
    kinds = known.kinds.get((side, name))
    if kinds is None:
        similar = near(name, known.names(side))
        others = [of.decode() for of in SIDES if of != b"env" and (of.decode(), name) in known.kinds] if side != "env" else []
        what = "variable" if side == "env" else "attribute"
        if others:
            says = f"`{name}` is an attribute of {SIDES[others[0].encode()]}: `{first} {others[0]} ..`"
            return marked(named, f"`no attribute`: {says}")
        return marked(named, f"`no {what}`: the policy has no {what} `{name}` there; a similar one is `{similar}`") if similar else None
    if first == "value":
        return None
    value = words[-1]
    if not fits("VALUE", value.raw) or any(admits(kind, value.raw) for kind in kinds):
        return None
    kind = sorted(kinds)[0]
    return marked(value, f"`bad value`: `{side}.{name}` is {kind}, and {kind_of(value.raw)} is {what_is_wanted(kind)}")


def kind_of(raw: bytes) -> str:
    return f"`{raw.decode(errors='replace')[:40]}`"


def what_is_wanted(kind: str) -> str:
    if kind == "text":
        return 'no text: a text stands between quotes, as `"12"`'
    if kind == "set":
        return 'no set: a set is written as `{"a","b"}`'
    return "none of its values: an integer is written without quotes, as `12`, and lies in the range"


def admits(kind: str, raw: bytes) -> bool:
    if kind in ("text", "set"):
        return raw[:1] == {"text": b'"', "set": b"{"}[kind]
    low, found, high = kind[len("int") :].replace(" ", "").partition("..")
    if not found or not is_integer(raw):
        return False
    return max(int(low), -GREATEST) <= int(raw) <= min(int(high), GREATEST)


# ---- comments that hide what was meant


def comments(document: Document) -> Iterator[str]:
    """Amendments that are cut by a comment, and comments that end with a whole command."""
    shown = 0
    for at, line in lines_of(document):
        said = ""
        if line.startswith(AMEND):
            said = "".join(comment_hint(document, Span(at + len(AMEND), at + len(line))))
        elif line.startswith(b"#"):
            said = "".join(hidden_command(document, line, at))
        shown += said != ""
        if shown > MOST:
            return
        yield said


def hidden_command(document: Document, line: bytes, at: int) -> Iterator[str]:
    """A comment with words of its own, and a command that writes something behind them: two lines that were joined."""
    words = words_of(line, at)
    for n, word in enumerate(words):
        first = word.raw.decode(errors="replace")
        if n > 1 and first in ("set", "env", "amend", "tick") and is_command(line[word.at - at :]):
            yield f"hint: all of this line is a comment, `{first}` too, which isn't run; a comment has a line of its own:\n"
            yield document.marked(Span(word.at, at + len(line)))
            return


def is_command(raw: bytes) -> bool:
    """Whether these words are a whole command, but for the policy of an amendment."""
    kinds = FORMS[raw.split(b" ")[0].decode()].split()
    words = words_of(raw, 0, len(kinds) + 1)[1:]
    return len(words) == len(kinds) and all(kind == "POLICY" or fits(kind, word.raw) for kind, word in zip(kinds, words))
