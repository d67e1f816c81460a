"""Faults of a script's lines: which word it is, and what is allowed there."""
import re
from typing import Iterator, List, NamedTuple, Optional

from launcher.near import near
from launcher.source import Document, Span, name_of_byte

FORMS = {
    "subject": "NAME",
    "object": "NAME",
    "set": "SIDE NAME ATTR VALUE",
    "env": "VAR VALUE",
    "tick": "T",
    "act": "SUBJECT ACT OBJECT",
    "try": "SUBJECT RIGHT OBJECT",
    "again": "n",
    "beat": "n",
    "end": "n",
    "look": "n",
    "value": "SIDE NAME ATTR",
    "amend": "POLICY",
}
NAME = re.compile(rb"[a-z][a-z0-9_]{0,31}")
INTEGER = re.compile(rb"0|-?[1-9][0-9]*")
SESSION = re.compile(rb"0|[1-9][0-9]*")
TEXT = rb'"[ !#-~]{0,64}"'
TEXTS = re.compile(TEXT)
SET = re.compile(rb"\{(?:" + TEXT + rb"(?:," + TEXT + rb")*)?\}")
GREATEST = 10**15

ALLOWED = {
    "NAME": "a name: 1 to 32 small letters, digits and `_`, the first a letter",
    "SIDE": "`s` for a subject, or `o` for an object",
    "T": "an integer from -10^15 to 10^15, without needless zeros",
    "n": "a session's number, 0 to 4294967295, without needless zeros",
    "VALUE": 'a value: an integer from -10^15 to 10^15, a text of at most 64 printable bytes in quotes without `"`,'
    ' or a set of rising texts, {"a","b"}, without blanks between them',
    "POLICY": "a policy on one line, as one above the divider might be; an empty one is the one space behind `amend`",
}


class Word(NamedTuple):
    raw: bytes
    at: int


def words_of(line: bytes, at: int, most: Optional[int] = None) -> List[Word]:
    """The words of a line between single spaces; the last of `most` words takes the rest."""
    found: List[Word] = []
    for raw in line.split(b" ") if most is None else line.split(b" ", most - 1):
        found.append(Word(raw, at))
        at += len(raw) + 1
    return found


def is_integer(raw: bytes) -> bool:
    return INTEGER.fullmatch(raw) is not None and len(raw) < 18 and abs(int(raw)) <= GREATEST


def is_set(raw: bytes) -> bool:
    texts = TEXTS.findall(raw)
    return SET.fullmatch(raw) is not None and len(texts) <= 64 and all(a < b for a, b in zip(texts, texts[1:]))


def is_value(raw: bytes) -> bool:
    return {b'"': TEXTS.fullmatch(raw) is not None, b"{": is_set(raw)}.get(raw[:1], is_integer(raw))


def fits(kind: str, raw: bytes) -> bool:
    if kind == "SIDE":
        return raw in (b"s", b"o")
    if kind == "n":
        return SESSION.fullmatch(raw) is not None and len(raw) < 11 and int(raw) < 2**32
    if kind == "T":
        return is_integer(raw)
    if kind == "POLICY":
        # The program alone judges a policy, and the word that it refused is this one.
        return False
    return is_value(raw) if kind == "VALUE" else NAME.fullmatch(raw) is not None


def explained(document: Document, kind: str, number: int) -> Iterator[str]:
    span = document.line_span(number)
    line = document.raw[span.start : span.end]
    mark, hints = {
        "bad heading": bad_heading,
        "too many clients": too_many_clients,
        "no word": no_word,
        "unknown word": unknown_word,
        "wrong count": wrong_count,
        "bad word": bad_word,
        "too long": too_long,
        "too many lines": lambda *_: (span, ["a script has at most 262,144 commands"]),
    }[kind](line, span.start)
    if line.endswith(b"\r"):
        mark, hints = Span(span.end - 1, span.end), [RETURN]
    yield document.marked(mark)
    yield from (f"hint: {says}\n" for says in hints)


RETURN = "the line ends with a carriage return (0d, invisible): lines end with a newline alone (tr -d '\\r' takes carriage returns out)"
HEADING = "a heading is `client N`, with N from 0 to 63 without needless zeros, and nothing behind it"


def bad_heading(line: bytes, at: int):
    words = words_of(line, at)
    first = words[0].raw.decode(errors="replace")
    if first != "client" and (first.lower().startswith("client") or near(first, ["client"])):
        return Span(at, at + len(line)), [HEADING]
    if first != "client":
        return Span(at, at + len(line)), ["a command stands below a heading that says whose it is: put `client 0` above it"]
    if len(words) > 2:
        behind = name_of_byte(line[words[2].at - 1 - at :]) if words[2].raw == b"" else None
        return Span(words[2].at - 1, at + len(line)), [f"{behind} (invisible) stands behind the number" if behind else HEADING]
    return (Span(words[1].at, at + len(line)) if len(words) > 1 else Span(at, at + len(line))), [HEADING]


def too_many_clients(line: bytes, at: int):
    word = words_of(line, at)[1]
    return Span(word.at, word.at + len(word.raw)), ["clients are numbered from 0 to 63"]


def too_long(line: bytes, at: int):
    amends = line.startswith(b"amend ")
    return Span(at, at + 1), ["a line that begins with `amend ` has at most 65,542 bytes" if amends else "a command has at most 8,192 bytes"]


def no_word(line: bytes, at: int):
    blanks = len(line) - len(line.lstrip(b" "))
    return Span(at, at + blanks), ["the line begins with a space (invisible): scripts take no indentation"]


def unknown_word(line: bytes, at: int):
    word = words_of(line, at)[0]
    mark = Span(word.at, word.at + len(word.raw))
    tab = line.find(b"\t")
    if 0 < tab and word.raw.split(b"\t")[0].decode(errors="replace") in (*FORMS, "client"):
        return tabbed(at + tab)
    similar = near(word.raw.decode(errors="replace"), (*FORMS, "client"))
    known = "a command begins with " + ", ".join(FORMS)
    unseen = name_of_byte(word.raw)
    if unseen:
        return Span(at, at + 1), [f"the line begins with {unseen} (invisible): scripts take no indentation"]
    if word.raw == b"%%":
        return mark, ["a second line `%%`: the script began behind the first one"]
    if word.raw[:2] == b"//":
        return mark, ["a comment begins with `#`, at the front of its line"]
    if word.raw != word.raw.lower():
        return mark, ["commands and names are small letters, digits and `_`", known]
    if similar == "client" or word.raw.startswith(b"client"):
        return mark, [HEADING]
    return mark, [f"a similar command is `{similar}`: {form_text(similar)}" if similar else known]


def tabbed(at: int):
    return Span(at, at + 1), ["a tab (invisible) stands here, where one space divides words"]


def form_text(first: str) -> str:
    return f"the form is `{first} {FORMS[first]}`"


def takes_rest(first: str) -> bool:
    return FORMS[first].split()[-1] in ("VALUE", "POLICY")


def wrong_count(line: bytes, at: int):
    words = words_of(line, at)
    first = words[0].raw.decode()
    wanted = len(FORMS[first].split()) + 1
    empty = next((word for word in words if word.raw == b""), None)
    comment = next((word for word in words[1:] if word.raw.startswith(b"#")), None)
    if b"\t" in line and len(words) < wanted:
        return tabbed(at + line.index(b"\t"))
    if comment:
        return Span(comment.at, at + len(line)), ["a comment stands on a line of its own, with `#` at its front", form_text(first)]
    if empty and not takes_rest(first):
        is_last = empty.at == at + len(line)
        says = "a space (invisible) stands at the end of the line" if is_last else "two spaces stand here, where one divides words"
        return Span(empty.at - 1, empty.at + (not is_last)), [says, form_text(first)]
    mark = Span(words[wanted].at, at + len(line)) if len(words) > wanted else Span(at + len(line), at + len(line) + 1)
    return mark, [f"{form_text(first)}, which is {wanted} words; here are {len(words)}"]


def bad_word(line: bytes, at: int):
    first = line.split(b" ")[0].decode()
    kinds = FORMS[first].split()
    words = words_of(line, at, len(kinds) + 1)[1:]
    kind, word = next((kind, word) for kind, word in zip(kinds, words) if not fits(kind, word.raw))
    mark = Span(word.at, max(word.at + len(word.raw), word.at + 1))
    is_last = word.raw == b"" and word.at == at + len(line)
    why = ["a space (invisible) stands at the end of the line, and no word behind it"] if is_last else reasons(kind, word.raw)
    return mark, [*why, f"{form_text(first)}, and {kind} is {ALLOWED.get(kind, ALLOWED['NAME'])}"]


def reasons(kind: str, raw: bytes) -> List[str]:
    """What is known of why a word is refused."""
    if kind == "POLICY":
        return ["the policy is refused: alone in a file, `ucon check` tells its first fault and the place"]
    if raw == b"":
        return ["two spaces stand here, where one divides words"]
    if kind == "VALUE" and re.search(rb"[}\"0-9] +#", raw):
        return ["a comment stands on a line of its own, with `#` at its front"]
    if kind == "VALUE" and raw[:1] == b'"' and raw[1:-1].count(b'"'):
        return ['a text holds no `"`']
    if kind == "VALUE" and raw[:1] == b"{":
        return set_reasons(raw)
    if kind in ("T", "VALUE") and INTEGER.fullmatch(raw):
        return ["the number is too big"]
    if kind == "n" and SESSION.fullmatch(raw):
        return ["the number is too big"]
    if kind not in ("T", "VALUE", "n") and raw != raw.lower():
        return ["names have no capital letters"]
    unseen = next((part for part in (raw[n:] for n in range(len(raw))) if name_of_byte(part)), None)
    return [f"the word holds {name_of_byte(unseen)} (invisible)"] if unseen and kind != "VALUE" else []


def set_reasons(raw: bytes) -> List[str]:
    if re.search(rb'" *, +"|" +,|\{ +| +\}', raw):
        return ["a blank stands between the texts"]
    if SET.fullmatch(raw) and len(TEXTS.findall(raw)) > 64:
        return ["a set has at most 64 texts"]
    return ["the texts don't rise"] if SET.fullmatch(raw) else []
