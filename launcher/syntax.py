"""Faults of a policy's grammar: what stands at the place, and what was probably meant."""
from typing import Callable, Iterator, List, Optional

from launcher import habits
from launcher.fault import Fault, Hint, fault_at
from launcher.policy import DECLARATIONS, PREDICATES, UPDATES, Token
from launcher.script import FORMS as COMMANDS
from launcher.source import Document, Span, name_of_byte, shown


def explained(document: Document, kind: str, at: int) -> Iterator[str]:
    fault = fault_at(document, at)
    yield document.marked(Span(at, max(fault.token.end, at + 1)), "the policy ends here" if fault.is_at_end else "")
    hint = (unknown_byte if kind == "unknown byte" else unexpected if kind == "unexpected" else limit_of(kind))(fault)
    if hint is None:
        return
    yield f"hint: {hint.says}{':' if hint.at else ''}\n"
    if hint.at:
        yield document.marked(hint.at)


# ---- bytes that begin no token

INSTEAD = {
    b"&": "both of two formulas are asked by `and`",
    b"|": "one of two formulas is asked by `or`",
    b"!": "a formula is turned round by `not`; unequal is `!=`",
    b"'": "a text stands between double quotes",
    b"/": "a comment begins with `#`; there is no division",
}


def unknown_byte(fault: Fault) -> Optional[Hint]:
    rest = fault.document.raw[fault.at :]
    unclosed = fault.last if fault.last and fault.last.kind == "text" and fault.last.end == fault.at else None
    if unclosed and not is_closed(unclosed):
        return in_text(rest, unclosed)
    if rest.startswith(b"%"):
        return divider(fault)
    if rest[:1].isalpha() and rest[:1].isupper():
        return Hint("words and names are small letters, digits and `_`; a capital letter stands only in a text or a comment")
    if rest[:1] in INSTEAD:
        return Hint(INSTEAD[rest[:1]])
    return Hint(f"{in_words(rest)} may not stand here{cure(rest)}")


def in_text(rest: bytes, text: Token) -> Hint:
    if rest.startswith(b"\n"):
        return Hint("a text is closed by a quote on its line; this one isn't", text.span)
    return Hint(f"{in_words(rest)} may not stand in a text, which is printable ASCII; this one begins here", text.span)


def is_closed(text: Token) -> bool:
    return len(text.raw) > 1 and text.raw.endswith(b'"')


def in_words(rest: bytes) -> str:
    """What the bytes begin with, named where it can't be seen."""
    name = name_of_byte(rest)
    if name:
        return f"{name} ({rest[:3].hex(' ') if rest[0] == 0xEF else rest[:1].hex()}, invisible)"
    return f"`{chr(rest[0])}`" if rest[0] < 0x7F else f"the byte {rest[:1].hex()}, which isn't ASCII,"


def cure(rest: bytes) -> str:
    if rest.startswith(b"\r"):
        return ": lines end with a newline alone (tr -d '\\r' takes carriage returns out)"
    if rest.startswith(b"\xef\xbb\xbf"):
        return ": save the file as plain ASCII, or as UTF-8 without the mark"
    return ""


def divider(fault: Fault) -> Hint:
    """A `%` outside of texts and comments: a divider that is none."""
    start, end = fault.document.line_start(fault.at), fault.document.line_end(fault.at)
    line = fault.document.raw[start:end]
    alone = "the policy ends with a line that is `%%` and nothing else"
    if line.startswith(b"%%") and len(line) > 2:
        behind = name_of_byte(line[2:])
        return Hint(f"{alone}; behind it stands {behind + ' (invisible)' if behind else '`' + shown(line[2:]) + '`'}", Span(start + 2, end))
    if fault.at > start:
        before = fault.document.raw[start : fault.at]
        unseen = name_of_byte(line) if before.isspace() else None
        return Hint(f"{alone}; before it stands {unseen + ' (invisible)' if unseen else '`' + shown(before) + '`'}")
    return Hint(alone)


# ---- tokens that may not stand there

PAIRS = {
    b"==": "equal is `=`",
    b"=<": "at most is `<=`",
    b"=>": "at least is `>=`",
    b"<>": "unequal is `!=`",
}
OPERATORS = (b"=", b"!=", b"<", b"<=", b">", b">=", b"in")
JOINING = (b"and", b"or", b"not", b"lasts")


def unexpected(fault: Fault) -> Optional[Hint]:
    rules: List[Callable[[Fault], Optional[Hint]]] = [
        habits.written_at_once,
        two_signs,
        quote_in_text,
        around_formula,
        missing_semicolon,
        missing_brace,
        missing_divider,
        *habits.RULES,
        number_spelling,
        range_dots,
        missing_operand,
        text_rule,
        hyphen,
        square_in_expression,
        bare_name,
        order_of_items,
    ]
    return next((hint for hint in (rule(fault) for rule in rules) if hint), None)


def two_signs(fault: Fault) -> Optional[Hint]:
    says = PAIRS.get(fault.document.raw[fault.at - 1 : fault.at + 1]) if fault.at else None
    return Hint(says) if says else None


def quote_in_text(fault: Fault) -> Optional[Hint]:
    last = fault.last
    if last and last.kind == "text" and not is_closed(last):
        return Hint("a text is closed by a quote on its line; this one isn't", last.span)
    if last and last.kind == "text" and last.end == fault.at and fault.token.kind in ("word", "number", "text"):
        return Hint('a text holds no `"`; this one ended before', last.span)
    return None


def open_bracket(item_tokens: List[Token], opens: bytes, closes: bytes) -> Optional[Token]:
    """The innermost bracket of a kind that is still open, and isn't that of `size`."""
    stack: List[Token] = []
    for before, token in zip([None, *item_tokens], item_tokens):
        if token.raw == opens:
            stack.append(token if before is None or before.raw != b"size" else token._replace(kind="size"))
        elif token.raw == closes and stack:
            stack.pop()
    return stack[-1] if stack and stack[-1].kind != "size" else None


def around_formula(fault: Fault) -> Optional[Hint]:
    item = fault.items.open_item
    if not item or fault.token.raw not in OPERATORS + JOINING:
        return None
    bracket = open_bracket(item.tokens, b"(", b")")
    return Hint("formulas group with `[ ]`; `( )` groups within an expression", bracket.span) if bracket else None


def is_whole(item: List[Token]) -> bool:
    """Whether an item might end here, but for its `;`."""
    last = item[-1]
    if last.kind not in ("number", "text", "word") and last.raw not in (b"]", b")", b"}"):
        return False
    if item[0].raw not in PREDICATES:
        return any(token.raw == b"=" for token in item)
    asked = [token.raw for token in item[4:]]
    if len(item) > 1 and item[1].raw == b"b":
        return len(asked) >= 2
    begins = max((n + 1 for n, raw in enumerate(asked) if raw in (b"and", b"or", b"not", b"[")), default=0)
    return last.raw == b"]" or any(raw in OPERATORS + (b"lasts",) for raw in asked[begins:-1])


def starters(fault: Fault) -> tuple:
    return PREDICATES + UPDATES + (b"}",) if fault.items.open_right else DECLARATIONS + (b"right",)


def missing_semicolon(fault: Fault) -> Optional[Hint]:
    item, tokens = fault.items.open_item, fault.before
    if not item or item.kind == "right":
        return None
    # `done accept` and then `on a left: ..`: the word `on` was read as that of the obligation.
    reads_on = tokens[-1].raw == b"on" and len(item.tokens) > 1 and fault.token.raw in (b"a", b"b", b"c")
    last, starts = (tokens[-2], tokens[-1]) if reads_on else (tokens[-1], fault.token)
    begins = reads_on or fault.is_at_end or fault.token.raw in starters(fault)
    if not begins or not is_whole(item.tokens[:-1] if reads_on else item.tokens):
        return None
    where = "at the end of the line before" if fault.is_at_end or fault.is_first_on_line(starts) else "before it"
    return Hint(f"a `;` is missing {where}", Span(last.end, last.end + 1))


def missing_brace(fault: Fault) -> Optional[Hint]:
    item, right = fault.items.open_item, fault.items.open_right
    if item and item.kind == "right" and len(item.tokens) == 2:
        return Hint("a right's name is followed by `{`", Span(item.tokens[1].end, item.tokens[1].end + 1))
    if right and not item and (fault.is_at_end or fault.token.raw in (b"right", b"attr", b"env")):
        return Hint("this right isn't closed by `}`", right.span)
    return None


def missing_divider(fault: Fault) -> Optional[Hint]:
    if fault.items.open_item or fault.items.open_right or not fault.is_first_on_line(fault.token):
        return None
    if fault.token.raw.decode(errors="replace") not in (*COMMANDS, "client"):
        return None
    return Hint("a command belongs to the script, which begins behind a line `%%`; no such line stands above it")


def number_spelling(fault: Fault) -> Optional[Hint]:
    if fault.last and fault.last.kind == "number" and fault.last.end == fault.at and fault.token.kind == "word":
        return Hint("a name begins with a letter, and a number is followed by a blank or a sign")
    if fault.token.kind == "number" and len(fault.token.raw) > 1 and fault.token.raw.startswith(b"0"):
        return Hint("a number has no needless zeros")
    return None


def range_dots(fault: Fault) -> Optional[Hint]:
    item = fault.items.open_item
    if fault.token.raw == b"." and fault.last and fault.last.kind == "number" and item and item.kind in ("attr", "env"):
        return Hint("a range is `LOW..HIGH`, with two dots; numbers have no fractions")
    return None


def missing_operand(fault: Fault) -> Optional[Hint]:
    item, signs = fault.items.open_item, OPERATORS + (b"+", b"-", b"*")
    wanted = item and item.kind in ("predicate", "update") and fault.last.raw in signs
    if wanted and fault.token.raw in signs + JOINING + (b";", b")", b"]", b"}"):
        return Hint(f"behind `{fault.last.raw.decode()}` a value or a place is missing", Span(fault.last.end, fault.last.end + 1))
    return None


def text_rule(fault: Fault) -> Optional[Hint]:
    if fault.token.kind != "text" or len(fault.before) < 2:
        return None
    last, earlier = fault.before[-1], fault.before[-2]
    if last.raw in (b"by", b"on"):
        return Hint(f"behind `{last.raw.decode()}` stands a name between quotes: small letters, digits and `_`, at most 32")
    if last.raw == b"," and earlier.kind == "text":
        return Hint("the texts of a set rise, each above the one before in the order of bytes, so none stands twice", earlier.span)
    return None


def hyphen(fault: Fault) -> Optional[Hint]:
    last, behind = fault.last, fault.document.raw[fault.at + 1 : fault.at + 2]
    if fault.token.raw == b"-" and last and last.kind == "word" and last.end == fault.at and behind.isalpha():
        return Hint("a name has no `-`; use `_`")
    return None


def square_in_expression(fault: Fault) -> Optional[Hint]:
    last = fault.last
    if fault.token.raw == b"[" and last and last.raw in OPERATORS + (b"+", b"-", b"*", b"("):
        return Hint("expressions group with `( )`; `[ ]` groups formulas")
    item = fault.items.open_item
    square = open_bracket(item.tokens, b"[", b"]") if item else None
    if square and fault.token.raw == b"]" and not any(t.raw in OPERATORS + JOINING for t in item.tokens if t.start > square.start):
        return Hint("expressions group with `( )`; `[ ]` groups formulas", square.span)
    return None


def bare_name(fault: Fault) -> Optional[Hint]:
    item, last = fault.items.open_item, fault.last
    reads = (b":", b"=", b"[", b"(", b"+", b"-", b"*") + OPERATORS + JOINING
    if not item or item.kind not in ("predicate", "update") or fault.token.kind != "word" or last.raw not in reads:
        return None
    name = fault.token.raw.decode()
    if len(item.tokens) > 1 and item.tokens[1].raw == b"b":
        return Hint("an obligation is `done ACT`, `within N ACT` or `every N ACT`")
    if name in ("true", "false"):
        return Hint("there are no truth values; an attribute `int 0..1` serves, asked by `= 1`")
    return Hint(f"an attribute is read as `s.{name}` (the subject's) or `o.{name}` (the object's), a variable as `env.{name}`")


def order_of_items(fault: Fault) -> Optional[Hint]:
    if fault.items.open_item:
        return None
    kinds = [item.kind for item in fault.items.items]
    right = fault.items.open_right
    if right and fault.token.raw in PREDICATES and kinds[-1] == "update":
        return Hint("in a right all predicates stand before the updates")
    if not right and fault.token.raw in DECLARATIONS and kinds:
        return Hint("attributes stand first, then variables, then rights")
    if right and fault.token.kind == "word":
        return Hint("a right has predicates (`pre`, `on`) and then updates (`before`, `during`, `after_end`, `after_revoke`)")
    return Hint("a policy has attributes (`attr`), then variables (`env`), then rights (`right`)") if fault.token.kind == "word" else None


# ---- limits

LONGEST = {
    "word": "a name has at most 32 bytes",
    "text": "a text has at most 64 bytes",
    "number": "a number is at most 1000000000000000 (10^15)",
}


def limit_of(kind: str) -> Callable[[Fault], Optional[Hint]]:
    return {"too long": too_long, "too deep": too_deep, "too many": too_many}[kind]


def too_long(fault: Fault) -> Optional[Hint]:
    if fault.at == 65_536 and fault.end > 65_536:
        return Hint("a policy has at most 65,536 bytes")
    says = LONGEST.get(fault.token.kind)
    return Hint(says) if says else None


def too_deep(_: Fault) -> Optional[Hint]:
    return Hint("`not`, `[`, `size` and `(` stand at most 32 deep")


def too_many(fault: Fault) -> Optional[Hint]:
    word = fault.token.raw
    if fault.items.open_item and fault.items.open_item.kind == "attr" and word in (b"s", b"o"):
        return Hint("a side has at most 16 attributes")
    if fault.items.open_item:
        return Hint("a set has at most 64 texts" if fault.token.kind == "text" else "a chain has at most 32 operands; `[ ]` or `( )` begins another")
    if word in PREDICATES:
        return Hint("a right has at most 16 predicates before a use, and 16 during it")
    if word in UPDATES:
        return Hint("a right has at most 16 updates of each time")
    return Hint({b"env": "there are at most 32 variables", b"right": "there are at most 64 rights"}.get(word, "this is one too many"))
