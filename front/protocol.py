"""Lines to the monitor, and what its lines say.

A line is `CLIENT COMMAND`, or a reading without a client's number. Exactly one line comes back for each, in order: `CLIENT PLACE REPLY`,
`CLIENT - no memory`, `CLIENT - disk fault`, `CLIENT - stopped`, `- K ..` for a reading, or `- - REASON` for a line that asks nothing."""
import json
import re
from dataclasses import dataclass

# The words of replies that change something. Their place is the step's.
CHANGES = frozenset(("ok", "permitted", "denied", "waiting", "ended"))
NAME = re.compile(r"[a-z][a-z0-9_]{0,31}")
# The greatest integer of the language, and the greatest number of a session that a line may name.
GREATEST = 10**15
LAST_SESSION = 2**32 - 1
# The most bytes of a text, and the most texts of a set.
LONGEST_TEXT = 64
MOST_TEXTS = 64
# The last client. Client 0 is the administrator.
LAST_CLIENT = 63
# What has to be true of a line so that it can't be two.
ONE_LINE = re.compile(rb"[^\n]*")

_REVOKED = re.compile(r"revoked (\d+) ([a-z][a-z0-9_]*)")
_BORDER = re.compile(r'; (?=(?:[^"]*"[^"]*")*[^"]*$)')
_NUMBERED = re.compile(r"(permitted|denied|waiting|ended) (\d+)(?: ([a-z][a-z0-9_]*))?")


class Unspeakable(ValueError):
    """What was asked can't be said as a command. The text is for whoever asked."""


# ---- what is said to the monitor


@dataclass(frozen=True, slots=True)
class Line:
    """A line for the monitor: a command of a client, or a reading where there is no client."""

    client: int | None
    text: str

    def raw(self) -> bytes:
        front = b"" if self.client is None else b"%d " % self.client
        return front + self.text.encode() + b"\n"


def name(value: object, what: str) -> str:
    """A name, or a sentence why it is none."""
    if not isinstance(value, str) or not NAME.fullmatch(value):
        raise Unspeakable(f"{what} is no name: 1 to 32 of a-z, 0-9 and _, the first a letter")
    return value


def session(value: object) -> int:
    if isinstance(value, bool) or not isinstance(value, int) or not 0 <= value <= LAST_SESSION:
        raise Unspeakable(f"session is no number from 0 to {LAST_SESSION}")
    return value


def spelled(value: object) -> str:
    """The one spelling of a value: an integer, a text, or a list of texts as a set."""
    if isinstance(value, bool):
        raise Unspeakable("value is neither an integer, nor a text, nor a list of texts")
    if isinstance(value, int):
        if abs(value) > GREATEST:
            raise Unspeakable(f"value is beyond {GREATEST}")
        return str(value)
    if isinstance(value, str):
        return _quoted(value)
    if isinstance(value, list) and len(value) <= MOST_TEXTS and all(isinstance(it, str) for it in value):
        return "{" + ",".join(_quoted(it) for it in sorted(set(value))) + "}"
    raise Unspeakable(f"value is neither an integer, nor a text, nor a list of at most {MOST_TEXTS} texts")


def _quoted(text: str) -> str:
    if len(text) > LONGEST_TEXT or not all(" " <= it <= "~" and it != '"' for it in text):
        raise Unspeakable(f"a text has at most {LONGEST_TEXT} printable ASCII characters, and no double quote")
    return f'"{text}"'


# ---- what the monitor says


@dataclass(frozen=True, slots=True)
class Revocation:
    session: int
    label: str


@dataclass(frozen=True, slots=True)
class Reply:
    """One line of the monitor. Without a place it is a refusal to run: no memory, a disk fault, or a line that asks nothing."""

    client: int | None
    place: int | None
    text: str

    @property
    def outcome(self) -> str:
        """The first word of a reply that changed something. Empty for every other one."""
        first = self.text.partition(" ")[0]
        return first if self.place is not None and first in CHANGES else ""

    @property
    def is_bad_line(self) -> bool:
        return self.client is None and self.place is None

    @property
    def session(self) -> int | None:
        """The session that a permit, a denial, a wait or an end names."""
        found = _NUMBERED.match(self.text) if self.outcome else None
        return int(found[2]) if found else None

    @property
    def label(self) -> str | None:
        """The label of a denial or a wait."""
        found = _NUMBERED.match(self.text) if self.outcome in ("denied", "waiting") else None
        return found[3] if found else None

    @property
    def revocations(self) -> tuple[Revocation, ...]:
        """The uses that the step revoked, in the order of revocation."""
        if not self.outcome:
            return ()
        return tuple(Revocation(int(it[1]), it[2]) for it in _REVOKED.finditer(self.text))


class NoReply(ValueError):
    """What came isn't a line of the protocol."""


def reply_of(raw: bytes) -> Reply:
    """The reply that a line is, given with its newline. It is ASCII, but that a policy has comments, which may hold any bytes."""
    try:
        client, place, text = raw.removesuffix(b"\n").split(b" ", 2)
        is_reading = client == b"-" and place != b"-"
        said = text.decode("utf-8", "replace") if is_reading else text.decode("ascii")
        return Reply(None if client == b"-" else int(client), None if place == b"-" else int(place), said)
    except ValueError:
        raise NoReply(f"not a line of the monitor: {raw[:80]!r}") from None


# ---- readings


@dataclass(frozen=True, slots=True)
class SessionRow:
    """What the reading `session N` says."""

    number: int
    client: int
    subject: str
    right: str
    object: str
    state: str
    # The tick at which the use was permitted. None where it isn't known.
    start: int | None


def session_row(text: str) -> SessionRow | None:
    """The row of `session N CLIENT SUBJECT RIGHT OBJECT STATE START`. None where there is no such session."""
    words = text.split(" ")
    if len(words) != 8 or words[0] != "session":
        return None
    return SessionRow(int(words[1]), int(words[2]), words[3], words[4], words[5], words[6], int(words[7]))


def numbers(text: str) -> tuple[int, ...]:
    """The sessions of `using N ..`."""
    words = text.split(" ")
    return tuple(int(it) for it in words[1:] if it) if words[0] == "using" else ()


def json_part(text: str) -> object:
    """The JSON value of `state` and `policy`."""
    return json.loads(text)


def explained(text: str) -> list[str]:
    """The lines of `explain`. A `; ` within a text, which stands in double quotes and has none, is no border."""
    return _BORDER.split(text)
