"""The state of a journal, and how it is read in the checkpoint that the program makes of it (docs/journal-format.md).

A checkpoint tells what a report tells, in lines that are read in a tenth of the time. Values are as a command spells them."""
import re
from itertools import compress
from typing import Dict, Iterator, List, NamedTuple, Optional, Sequence

from launcher.journal import DAMAGED, Refused

OPEN = ("accessing", "requesting")
STATES = (*OPEN, "denied", "revoked", "ended")
# About how many characters of sessions are read at once.
PART = 1 << 16
Row = Dict[str, str]
BEGINS = re.compile(rb"point (0|[1-9][0-9]*)\npolicy (0|[1-9][0-9]*)\n")
# The words with which a checkpoint's lines begin behind its tick, from the last one on.
PARTS = ("session", "act", "object", "subject", "env")


class Unread(Refused):
    """The text isn't what the program writes, and why."""

    def __init__(self, why: str) -> None:
        super().__init__(DAMAGED, f"what the program tells of the state can't be read: {why}", "see which program is run: `ucon --version`")


class Act(NamedTuple):
    """An act that was done, and its last moment."""

    subject: str
    action: str
    object: str
    at: int


class Session(NamedTuple):
    number: int
    client: str
    right: str
    subject: str
    object: str
    state: str
    start: int


class Sessions(NamedTuple):
    """Some sessions by rising number, a column for each of their members."""

    numbers: Sequence[int]
    clients: Sequence[str]
    rights: Sequence[str]
    subjects: Sequence[str]
    objects: Sequence[str]
    states: Sequence[str]
    starts: Sequence[str]

    def of(self, state: str) -> "Sessions":
        """Those in one state."""
        kept = list(map(state.__eq__, self.states))
        return self if all(kept) else Sessions(*(list(compress(column, kept)) for column in self))

    def rows(self) -> Iterator[Session]:
        return map(Session, *self[:-1], map(int, self.starts))


class Members(NamedTuple):
    """What is told of a state. `lines` has a line for each session, with its number in `numbers`; of a report the closed ones are only
    counted, since there may be a million of them, and the policy in force isn't told."""

    entries: int
    tick: int
    env: Row
    subjects: Dict[str, Row]
    objects: Dict[str, Row]
    acts: List[Act]
    counts: Dict[str, int]
    numbers: Sequence[int]
    lines: str
    policy: Optional[bytes] = None


class State(Members):
    """What stands in a journal behind its last step."""

    def sessions(self) -> Iterator[Sessions]:
        """The sessions, some of them at once: what fits a processor's cache is read in half the time."""
        at = n = 0
        while at < len(self.lines):
            end = self.lines.find("\n", at + PART) + 1 or len(self.lines)
            columns = columns_in("session", self.lines[at:end], 7)
            yield Sessions(self.numbers[n : n + len(columns[0])], *columns)
            at, n = end, n + len(columns[0])

    def of(self, state: str) -> Iterator[Sessions]:
        """Those in one state."""
        return (part.of(state) for part in self.sessions()) if self.counts[state] else iter(())

    def rows(self, *states: str) -> List[Session]:
        """The same one by one."""
        return [row for part in self.sessions() for row in part.rows() if row.state in states]

    def lines_of(self, state: str) -> str:
        """The lines of those in one state."""
        if self.counts[state] == len(self.numbers):
            return self.lines
        found = (state == it for part in self.sessions() for it in part.states)
        return "".join(compress(self.lines.splitlines(keepends=True), found))

    @property
    def tried(self) -> int:
        """How many sessions there were."""
        return sum(self.counts.values())


def read(text: bytes) -> State:
    """The state that a checkpoint's payload tells."""
    begins = BEGINS.match(text)
    if begins is None:
        raise Unread("it doesn't begin as a checkpoint")
    end = begins.end() + int(begins[2])
    try:
        # A line of its own stands behind the policy.
        return read_lines(int(begins[1]), text[begins.end() : end], text[end:].decode("ascii"))
    except (IndexError, KeyError, ValueError) as why:
        raise Unread(f"{type(why).__name__}: {why}") from None


def read_lines(entries: int, policy: bytes, body: str) -> State:
    found = {}
    for word in PARTS:
        # No value has a newline, so the first such line begins the part.
        at = body.find(f"\n{word} ") + 1 or len(body)
        body, found[word] = body[:at], body[at:]
    newline, tick = body.split("tick ")
    if newline != "\n":
        raise Unread("no tick is behind the policy")
    lines = found["session"]
    numbers = range(1, lines.count("\n") + 1)
    variables = [line.split(" ", 2) for line in found["env"].splitlines()]
    return counted(State(
        entries, int(tick), {name: value for _, name, value in variables}, entities_in("subject", found["subject"]),
        entities_in("object", found["object"]), acts_in(found["act"]), {}, numbers, lines, policy,
    ))


def columns_in(word: str, text: str, count: int) -> List[List[str]]:
    """The words of lines, each of which has so many and begins with this one, in columns; that one aside."""
    words = text.split()
    columns = [words[n::count] for n in range(count)]
    rows = text.count("\n")
    if len(words) != rows * count or columns[0].count(word) != rows:
        raise Unread(f"a line isn't one of `{word}`")
    return columns[1:]


def entities_in(word: str, text: str) -> Dict[str, Row]:
    """Entities of one side: each a line, with a line behind it for each attribute of the side."""
    lines = text.splitlines()
    size = next((n for n, line in enumerate(lines[1:], 1) if line.startswith(f"{word} ")), len(lines))
    columns = [lines[n::size] for n in range(size)]
    if len(lines) % (size or 1) or not all(line.startswith(f"{word} ") for line in lines[::size or 1]):
        raise Unread(f"a line isn't one of `{word}`, or of its values")
    fronts = [f"{word} ", *(column[0][: column[0].index(" ", 6) + 1] for column in columns[1:])]
    values = [[line[len(front) :] for line in column if line.startswith(front)] for front, column in zip(fronts, columns)]
    if any(len(kept) != len(column) for kept, column in zip(values, columns)):
        raise Unread(f"a `{word}` has other values than the first one")
    names = [front[6:-1] for front in fronts[1:]]
    rows = zip(*values[1:]) if names else iter([()] * len(lines))
    return dict(zip(values[0], (dict(zip(names, row)) for row in rows))) if lines else {}


def acts_in(text: str) -> List[Act]:
    subjects, actions, things, moments = columns_in("act", text, 5)
    return list(map(Act._make, zip(subjects, actions, things, map(int, moments))))


def counted(state: State) -> State:
    """The state with how many sessions there are of each state."""
    counts = {it: state.lines.count(f" {it} ") for it in STATES}
    if sum(counts.values()) != len(state.numbers):
        # A name is the name of a state, too.
        counts = dict.fromkeys(STATES, 0)
        for part in state.sessions():
            for it in part.states:
                counts[it] += 1
    return state._replace(counts=counts)
