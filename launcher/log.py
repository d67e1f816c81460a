"""`ucon log JOURNAL`: each step with its place, client, command and reply, and what each session in a reply was tried for.

A step is one line: `PLACE CLIENT COMMAND -> REPLY`, with `[SUBJECT RIGHT OBJECT]` behind each session that the reply names."""
import os
import re
import select
import sys
from functools import lru_cache
from typing import Dict, List, NamedTuple, Optional, Set, Union

from launcher.journal import FIRST_GATE, POINT, STEP, Damaged, Journal, Refused, Window, open_journal
from launcher.output import say_cut_off, write
from launcher.reading import is_path

FILE_FAILED = 6
# How long one wait for more is, in seconds.
WAIT = 0.2
# A session that a reply names: what became of it, its number, and the label where there is one.
NAMED = re.compile(rb"(permitted|ended) (\d+)|(denied|waiting|revoked) (\d+) (\w+)")
# All that a line may show as it is; a policy's comment may hold any byte.
PRINTABLE = bytes(range(0x20, 0x7F)) + b"\n"
PLACE = re.compile("[1-9][0-9]{0,18}")
# How the payload of a step begins and ends that is answered `ok` alone.
BEGINS = re.compile(r"([0-9]|[1-5][0-9]|6[0-3]) [^\n]")
OK, PERMITTED = "\nok", "\npermitted "
# What stands between the two numbers of a `try` that is permitted, in JSON.
PERMITS = '","sessions":[{"outcome":"permitted","session":'
TRIES = re.compile(r"([0-9]|[1-5][0-9]|6[0-3]) (try ([a-z0-9_]+) ([a-z0-9_]+) ([a-z0-9_]+))")


class NoStep(Exception):
    """A payload hasn't the form of a step."""


class Asked(NamedTuple):
    """What is asked of a log: the first place that is printed, whether it waits for more, and whether each line is a JSON text."""

    path: str
    first: int = 1
    follows: bool = False
    as_json: bool = False


def asked_of(words: List[str]) -> Optional[Asked]:
    """What the words ask. None where they are no `log`."""
    asked = Asked(words[1]) if words[:1] == ["log"] and len(words) > 1 and is_path(words[1]) else None
    left = words[2:]
    while asked and left:
        word = left.pop(0)
        if word == "--follow":
            asked = asked._replace(follows=True)
        elif word == "--json":
            asked = asked._replace(as_json=True)
        elif word == "--from" and left and PLACE.fullmatch(left[0]):
            asked = asked._replace(first=int(left.pop(0)))
        else:
            return None
    return asked


class Use(NamedTuple):
    """A session as a reply names it."""

    outcome: str
    session: int
    label: Optional[str]


def uses_in(reply: bytes) -> List[Use]:
    """The sessions that a changing reply names, in its order."""
    found = (m.groups() for m in NAMED.finditer(reply))
    return [Use((a or c).decode(), int(b or d), label.decode() if label else None) for a, b, c, d, label in found]


class Tried(NamedTuple):
    """A `try` as a client said it, and was permitted: its names, and what stands in its line between place and number, and behind that."""

    names: bytes
    front: str
    back: str


@lru_cache(8192)
def tried_in(said: str, as_json: bool) -> Optional[Tried]:
    """The `try` that a client said. None where it said something else."""
    found = TRIES.fullmatch(said)
    if found is None:
        return None
    client, command, subject, right, name = found.groups()
    names = command[4:]
    if not as_json:
        return Tried(names.encode(), f" {said} -> permitted ", f" [{names}]\n")
    back = f',"subject":"{subject}","right":"{right}","object":"{name}"}}]}}\n'
    return Tried(names.encode(), f',"client":{client},"command":"{command}","reply":"permitted ', back)


class Sessions:
    """What each session was tried for: `SUBJECT RIGHT OBJECT` as the command has it."""

    def __init__(self) -> None:
        self.tries: List[bytes] = []

    def note(self, command: bytes, reply: bytes) -> None:
        """Takes a step in. A `try` makes the next session."""
        if command.startswith(b"try ") and reply[:1] in (b"p", b"d", b"w"):
            self.tries.append(command[4:])

    def of(self, session: int) -> bytes:
        """Empty where no `try` of the journal made it."""
        return self.tries[session - 1] if 0 < session <= len(self.tries) else b""


class Lines:
    """The lines of steps, one after the other, with what earlier steps told of sessions."""

    def __init__(self, journal: Journal, asked: Asked) -> None:
        self.journal = journal
        self.asked = asked
        self.has_points = journal.version() > 1
        self.sessions = Sessions()
        self.place = 0
        self.records = 0
        # The record at which the lines end, since it isn't what it should be.
        self.wrong: Optional[Damaged] = None

    def of(self, window: Window) -> bytes:
        """The lines of a window's steps, which stand behind those of the windows before. They end at a record that is wrong."""
        # Text of one character a byte is put together in a third of the time that bytes take.
        raw = window.raw.decode("latin-1")
        payloads = [raw[a + 5 : b] for a, b in zip(window.gates, window.gates[1:])]
        steps = payloads if self.records else payloads[1:]
        if self.has_points and POINT in window.raw:
            steps = [it for it in steps if not it.startswith(POINT.decode())]
        said = "".join(steps)
        is_plain = said.isascii() and not said.encode().translate(None, PRINTABLE)
        left_out, count = max(self.asked.first - self.place - 1, 0), len(steps)
        made = self.plain_lines(steps) if is_plain else None
        if made is None:
            lines: List[str] = []
            try:
                self.add_lines(lines, window, payloads)
            except Damaged as why:
                self.wrong = why
            made, count = "".join(lines), len(lines)
        self.records += len(payloads)
        if left_out:
            made = made.split("\n", left_out)[-1] if left_out < count else ""
        raw_lines = made.encode("latin-1")
        return raw_lines if is_plain else escaped(raw_lines)

    def plain_lines(self, steps: List[str]) -> Optional[str]:
        """The lines of steps that are printable: those that are answered `ok` alone are made at once, by what stands before and behind each
        command. None where a payload isn't a step by its form."""
        tried = len(self.sessions.tries)
        alone = [it for it in steps if it.endswith(OK)]
        begins = list(map(BEGINS.match, {it[:4] for it in alone}))
        # Another line stands for itself, and has no newline here.
        are_alone = len(alone) == len(steps)
        text = "\0".join(["", *(steps if are_alone else [it if it.endswith(OK) else "\1" for it in steps]), ""])
        if None in begins or text.count("\n") != len(alone):
            return None
        try:
            said = range(self.place + 1, self.place + 1 + len(steps)) if are_alone else self.others_among(steps)
        except NoStep:
            del self.sessions.tries[tried:]
            return None
        self.place += len(steps)
        return self.around(text, {it[1] for it in begins if it}) % tuple(said)

    def around(self, text: str, clients: Set[str]) -> str:
        """Payloads between zeros, put into lines with `%s` for each place, and for the whole line where a one stands."""
        text = text.replace("%", "%%").replace("\1", "%s")
        before, behind = "%%s %s ", " -> ok\n"
        if self.asked.as_json:
            text = text.replace("\\", "\\\\").replace('"', '\\"')
            before, behind = '{"place":%%s,"client":%s,"command":"', '","reply":"ok","sessions":[]}\n'
        for client in clients:
            text = text.replace(f"\0{client} ", "\0" + before % client)
        return text.replace(f"{OK}\0", f"{behind}\0").replace("\0", "")

    def others_among(self, steps: List[str]) -> List[Union[int, str]]:
        """For each step its place where it is answered `ok` alone, and else its line. That of a `try` that is only permitted takes no search."""
        found: List[Union[int, str]] = []
        add, as_json, tries = found.append, self.asked.as_json, self.sessions.tries
        for place, payload in enumerate(steps, self.place + 1):
            if payload.endswith(OK):
                add(place)
                continue
            said, _, number = payload.partition(PERMITTED)
            tried = tried_in(said, as_json)
            if tried is None or number != str(len(tries) + 1):
                add(self.other_line(place, payload))
                continue
            names, front, back = tried
            tries.append(names)
            add(f'{{"place":{place}{front}{number}{PERMITS}{number}{back}' if as_json else f"{place}{front}{number}{back}")
        return found

    def other_line(self, place: int, payload: str) -> str:
        step = STEP.fullmatch(payload.encode())
        if step is None:
            raise NoStep
        return self.step_line(place, step)

    def add_lines(self, made: List[str], window: Window, payloads: List[str]) -> None:
        """Adds a line for each step, one after the other."""
        for number, payload in enumerate(payloads, self.records):
            line = self.line(number, window, payload)
            if line:
                made.append(line)

    def line(self, number: int, window: Window, payload: str) -> str:
        """The line of any record. Empty where it is no step; refused where it should be one."""
        raw = payload.encode("latin-1")
        if number == 0 or (self.has_points and raw.startswith(POINT)):
            return ""
        step = STEP.fullmatch(raw)
        if step is None:
            at = window.at + window.gates[number - self.records]
            raise Damaged(self.journal.name, number, at, "it has not the form of a step")
        self.place += 1
        return self.step_line(self.place, step)

    def step_line(self, place: int, step: "re.Match[bytes]") -> str:
        client, command, reply = step.groups()
        self.sessions.note(command, reply)
        if self.asked.as_json:
            return self.json_line(place, client, command, reply)
        return (b"%d %b %b -> %b\n" % (place, client, command, NAMED.sub(self.with_use, reply))).decode("latin-1")

    def with_use(self, named: "re.Match[bytes]") -> bytes:
        tried = self.sessions.of(int(named[2] or named[4]))
        return b"%b [%b]" % (named[0], tried) if tried else named[0]

    def json_line(self, place: int, client: bytes, command: bytes, reply: bytes) -> str:
        import json

        said = {"place": place, "client": int(client), "command": text_of(command), "reply": text_of(reply), "sessions": self.uses(reply)}
        return json.dumps(said, separators=(",", ":")) + "\n"

    def uses(self, reply: bytes) -> List[Dict[str, object]]:
        found = []
        for use in uses_in(reply):
            names = text_of(self.sessions.of(use.session)).split()
            tried = dict(zip(("subject", "right", "object"), names))
            label = {} if use.label is None else {"label": use.label}
            found.append({"outcome": use.outcome, "session": use.session, **label, **tried})
        return found


def text_of(raw: bytes) -> str:
    return raw.decode(errors="backslashreplace")


def escaped(lines: bytes) -> bytes:
    """The lines with each byte that isn't printable ASCII shown by its escape, as \\x1b."""
    return b"".join(b"%c" % byte if byte in PRINTABLE else b"\\x%02x" % byte for byte in lines)


# ---- the word


def run(asked: Asked) -> int:
    with open_journal(asked.path) as journal:
        printed = print_all(journal, asked)
        while asked.follows and wait(journal, printed.at):
            printed = print_all(journal, asked, printed)
        if journal.magic():
            say_cut_off(journal, printed.at)
        else:
            sys.stderr.write(f"ucon: {journal.name} holds no record yet\n")
    return 0


class Printed(NamedTuple):
    """Up to where the lines went out: the gate behind the last record, and the lines with what they know of sessions."""

    at: int
    lines: Lines


def print_all(journal: Journal, asked: Asked, before: Optional[Printed] = None) -> Printed:
    """Prints the lines of all records behind those before."""
    at, lines = before or Printed(FIRST_GATE, Lines(journal, asked))
    for window in journal.windows(at, lines.records) if journal.magic() else ():
        write(lines.of(window))
        if lines.wrong:
            raise lines.wrong
        at = window.at + window.gates[-1]
    return Printed(at, lines)


def wait(journal: Journal, at: int) -> bool:
    """Waits once for more. Whether somebody reads still; refused where the file at the path is another one now, or was cut."""
    reader = select.poll()
    reader.register(1, 0)
    if reader.poll(int(1000 * WAIT)):
        return False
    try:
        is_there = os.path.samestat(os.stat(journal.name), os.fstat(journal.file))
    except FileNotFoundError:
        is_there = False
    if not is_there:
        raise Refused(FILE_FAILED, f"{journal.name} is another file now, or none", "what was printed is of the one before")
    if FIRST_GATE < at >= journal.size:
        raise Refused(FILE_FAILED, f"{journal.name} was cut while it was followed", "what was printed isn't all in it any more")
    return True
