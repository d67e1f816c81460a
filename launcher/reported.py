"""The state of a journal as `report` prints it: the text of one that a checkpoint told. Where there is no checkpoint, the program's own text
is read. That is read in parts; a closed session is counted and not kept, since there may be a million of them."""
import json
import re
import sys
from itertools import chain
from typing import Any, Dict, Iterator, List, NamedTuple, Pattern, Tuple, Union

from launcher.pointed import OPEN, STATES, Act, Row, Sessions, State, Unread

Value = Union[int, str, List[str]]
decode = json.JSONDecoder().raw_decode
# About how many characters of a list are read at once.
PART = 1 << 16
# A row of a list as the program spells it, its keys in the order of their bytes: names and numbers.
NAME, NUMBER = r'"([a-z][a-z0-9_]*)"', "(-?[0-9]+)"
ACT = re.compile(rf'\{{"action":{NAME},"at":{NUMBER},"object":{NAME},"subject":{NAME}\}}')
SESSION = re.compile(
    rf'\{{"caller":{NUMBER},"number":{NUMBER},"object":{NAME},"right":{NAME},"start":{NUMBER},"state":{NAME},"subject":{NAME}\}}'
)


class Text:
    """A text that is read from its front on."""

    def __init__(self, text: str) -> None:
        self.text = text
        self.at = 0

    def skip(self, wanted: str) -> bool:
        is_there = self.text.startswith(wanted, self.at)
        self.at += len(wanted) if is_there else 0
        return is_there

    def must(self, wanted: str) -> None:
        if not self.skip(wanted):
            raise Unread(f"`{wanted}` is wanted at {self.at}")

    def value(self, key: str) -> Any:
        self.must(f'"{key}":')
        return self.one()

    def one(self) -> Any:
        try:
            found, self.at = decode(self.text, self.at)
        except ValueError as why:
            raise Unread(str(why)) from None
        return found

    def rows(self, key: str, row: Pattern[str]) -> Iterator[List[Tuple[str, ...]]]:
        """The rows of a list, some of them at once. They have names and numbers alone, so that a bracket or a brace in it is no text's."""
        self.must(f'"{key}":[')
        end = self.text.find("]", self.at)
        while self.at < end:
            part = self.text.find("}", self.at + PART, end) + 1 or end
            found = row.findall(self.text, self.at, part)
            # As many rows as braces of each kind, and a comma alone between two of them: so they are all that is there.
            counts = {self.text.count(brace, self.at, part) for brace in "{}"} | {self.text.count("},{", self.at, part) + 1}
            if counts != {len(found)} or not self.text.startswith("{", self.at) or self.text[part - 1] != "}":
                raise Unread(f"a row of `{key}` isn't one, behind {self.at}")
            yield found
            self.at = part
            self.skip(",")
        self.must("]")


def read(raw: bytes) -> State:
    """The state that a report tells. Its keys stand in the order of their bytes."""
    try:
        return read_all(Text(raw.decode("ascii")))
    except (KeyError, TypeError, ValueError) as why:
        raise Unread(f"{type(why).__name__}: {why}") from None


def read_all(text: Text) -> State:
    name = sys.intern
    text.must("{")
    rows = (row for part in text.rows("acts", ACT) for row in part)
    acts = [Act(name(subject), name(action), name(thing), int(at)) for action, at, thing, subject in rows]
    found: Dict[str, Any] = {}
    for key in ("entries", "env", "objects"):
        text.must(",")
        found[key] = text.value(key)
    text.must(",")
    sessions = read_sessions(text)
    for key in ("subjects", "tick"):
        text.must(",")
        found[key] = text.value(key)
    text.must("}")
    subjects, objects = ({entity: spelled_row(row) for entity, row in found[key].items()} for key in ("subjects", "objects"))
    return State(found["entries"], found["tick"], spelled_row(found["env"]), subjects, objects, acts, *sessions)


class Lines(NamedTuple):
    """The sessions that go on or wait, as the lines of a checkpoint, their numbers, and how many sessions there are of each state."""

    counts: Dict[str, int]
    numbers: List[int]
    lines: str


def read_sessions(text: Text) -> Lines:
    counts = dict.fromkeys(STATES, 0)
    numbers: List[int] = []
    lines: List[str] = []
    for rows in text.rows("sessions", SESSION):
        for client, number, thing, right, start, state, subject in rows:
            counts[state] += 1
            if state in OPEN:
                numbers.append(int(number))
                lines.append(f"session {client} {right} {subject} {thing} {state} {start}\n")
    return Lines(counts, numbers, "".join(lines))


def spelled_row(row: Dict[str, Value]) -> Row:
    return {name: spelled(value) for name, value in row.items()}


def spelled(value: Value) -> str:
    """A value as a command spells it."""
    if isinstance(value, int):
        return str(value)
    if isinstance(value, str):
        return f'"{value}"'
    return "{" + ",".join(f'"{it}"' for it in value) + "}"


# ---- the text of a state


def text_of(state: State) -> str:
    """The report of a state that has its closed sessions, to the byte as the program's `report` prints it."""
    acts = (f'{{"action":"{it.action}","at":{it.at},"object":"{it.object}","subject":"{it.subject}"}}' for it in state.acts)
    sessions = chain.from_iterable(map(session_texts, state.sessions()))
    return ",".join([
        f'{{"acts":[{",".join(acts)}]', f'"entries":{state.entries}', f'"env":{row_text(state.env)}', f'"objects":{entities_text(state.objects)}',
        f'"sessions":[{",".join(sessions)}]', f'"subjects":{entities_text(state.subjects)}', f'"tick":{state.tick}}}\n',
    ])


def session_texts(found: Sessions) -> Iterator[str]:
    columns = zip(found.clients, found.numbers, found.objects, found.rights, found.starts, found.states, found.subjects)
    return map('{"caller":%s,"number":%d,"object":"%s","right":"%s","start":%s,"state":"%s","subject":"%s"}'.__mod__, columns)


def entities_text(found: Dict[str, Row]) -> str:
    return "{" + ",".join(f'"{name}":{row_text(found[name])}' for name in sorted(found)) + "}"


def row_text(row: Row) -> str:
    return "{" + ",".join(f'"{name}":{value_text(row[name])}' for name in sorted(row)) + "}"


def value_text(value: str) -> str:
    """A value in JSON. Of its bytes a backslash alone is spelled otherwise there; a text has no quotes."""
    escaped = value.replace("\\", "\\\\")
    return f"[{escaped[1:-1]}]" if value.startswith("{") else escaped
