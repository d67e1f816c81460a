"""`ucon amend JOURNAL FILE`: the policy of a file put in force in a journal, tried on a copy first.

The file's tokens are made the one line of `amend`, and its comments are left out. The program judges the policy, and says on the copy who
is revoked; of two policies that it accepted, what each declares is read here."""
import pathlib
import re
import sys
import tempfile
from typing import Dict, List, NamedTuple, Optional

from launcher import hints, log
from launcher.asking import POLICY_REFUSED, answered
from launcher.in_force import in_force
from launcher.journal import FILE_FAILED, Journal, Refused, Step, no_policy, open_journal
from launcher.keeping import ACCEPT, BEHIND_FILE, Keeper
from launcher.lock import Lock, take
from launcher.policy import declared_in, items_of, one_line, tokens_of
from launcher.program import Ended
from launcher.reading import is_path
from launcher.room import copied, is_unwritable, room
from launcher.source import policy_end
from launcher.told import loss_of

# The journal wasn't amended.
NOT_AMENDED = 121
PLACE = re.compile(r"(?:s|o|env)\.[a-z][a-z0-9_]{0,31}")
KEPT_FIRST = """documents for this journal still begin with the policy that it began with: `ucon policy {0} --first` prints it
scripts need none: `ucon play {0} --script FILE` takes it from the journal"""


class Asked(NamedTuple):
    path: str
    file: str
    is_dry: bool
    drops: List[str]
    accepts_loss: bool


def asked_of(words: List[str]) -> Optional[Asked]:
    """What the words ask. None where they are no `amend`."""
    if words[:1] != ["amend"] or len(words) < 3 or not all(map(is_path, words[1:3])):
        return None
    asked, left = Asked(words[1], words[2], False, [], False), words[3:]
    while left:
        word = left.pop(0)
        if word == "--dry-run":
            asked = asked._replace(is_dry=True)
        elif word == ACCEPT:
            asked = asked._replace(accepts_loss=True)
        elif word == "--drop" and left and PLACE.fullmatch(left[0]):
            while left and PLACE.fullmatch(left[0]):
                asked.drops.append(left.pop(0))
        else:
            return None
    return asked


# ---- policies


class Brought(NamedTuple):
    """The policy of a file: all of it, or of a document what stands before its divider."""

    policy: bytes
    is_document: bool


def policy_in(file: str) -> bytes:
    return brought(file).policy


def brought(file: str) -> Brought:
    """What a file brings. Refused where it can't be read."""
    try:
        raw = pathlib.Path(file).read_bytes()
    except OSError as why:
        raise Refused(FILE_FAILED, f"{file} can't be read: {why.strerror}", "name a file with a policy, as one that `ucon check` takes") from None
    return Brought(raw[: policy_end(raw)], policy_end(raw) < len(raw))


def declared(policy: bytes) -> Dict[str, bytes]:
    """What a policy declares, as `s.NAME`, `o.NAME` and `env.NAME`, each with the tokens of its kind."""
    found = declared_in(items_of(tokens_of(policy)).items, policy)
    return {f"{side.decode()}.{name.decode()}": kind_of(it.kind) for side, names in found.items() for name, it in names.items()}


def kind_of(raw: bytes) -> bytes:
    """A kind in one spelling, as it stands behind the colon of a declaration."""
    return b"".join(token.raw for token in tokens_of(raw)).replace(b"int", b"int ", 1)


class Change(NamedTuple):
    """What an amendment does to what is declared."""

    gone: List[str]
    new: List[str]
    other: List[str]


def change_of(old: Dict[str, bytes], new: Dict[str, bytes]) -> Change:
    return Change(
        [it for it in old if it not in new], [it for it in new if it not in old], [it for it in old if it in new and old[it] != new[it]]
    )


# ---- the trial


def document_for(first: bytes, line: bytes) -> bytes:
    return first + b"%%\nclient 0\namend " + line + b"\n"


def tried(path_of_program: pathlib.Path, journal: Journal, end: int, document: bytes) -> bytes:
    """What the amendment is answered on a copy, which is then gone. The journal's records end at this place."""
    with room(end) as folder:
        ended = answered(path_of_program, ["play", str(copied(journal, folder, end, b"\0"))], document)
    if ended.status in POLICY_REFUSED:
        # The new policy is accepted, so that it is the one that the journal began with.
        raise no_policy(journal.name)
    if ended.status:
        raise Refused(ended.status, f"{journal.name}: on a copy: {ended.line}", "the journal was left as it is")
    return ended.output.split(b" ", 2)[2].rstrip(b"\n")


def hold_accepted(path_of_program: pathlib.Path, file: str, policy: bytes) -> None:
    """The program accepts the policy. Refused with its own line, and the place in the file."""
    ended = answered(path_of_program, ["check"], policy)
    if ended.status:
        hint = hints.behind(path_of_program, ["check"], Ended(ended.status, ended.errors), file, policy).rstrip("\n")
        raise Refused(ended.status, f"{file}: {ended.line}" + (f"\n{hint}" if hint else ""))


def report(journal: Journal, change: Change, kinds: Dict[str, bytes], reply: bytes) -> List[str]:
    """What the amendment does, a line each."""
    lines = [f"comes in: {it} : {kinds[it].decode()}" for it in change.new]
    lines += [f"loses its values: {it}" for it in change.gone]
    lines += [f"can't change: {it}, whose kind is another one" for it in change.other]
    uses = log.uses_in(reply)
    sessions = log.Sessions()
    for record in journal.records() if uses else ():
        if isinstance(record.says, Step):
            sessions.note(record.says.command, record.says.reply)
    return lines + [f"revokes: {use.session} [{sessions.of(use.session).decode()}] by {use.label}" for use in uses]


def unchanged(old: bytes, new: bytes) -> List[str]:
    """What is said of an amendment of which nothing else is."""
    is_same = [token.raw for token in tokens_of(old)] == [token.raw for token in tokens_of(new)]
    return ["changes nothing: it says what the policy in force says" if is_same else "changes no declaration, and ends no use"]


# ---- the word


def run(path_of_program: pathlib.Path, asked: Asked) -> int:
    policy, is_document = brought(asked.file)
    if is_document:
        sys.stderr.write(f"ucon: {asked.file} is a document: the policy before its line %% is taken, and nothing behind it\n")
    hold_accepted(path_of_program, asked.file, policy)
    if asked.is_dry:
        with open_journal(asked.path) as journal:
            document_and_report(path_of_program, journal, asked, policy)
        return 0
    open_journal(asked.path).__exit__()
    held = take(asked.path)
    if held is None:
        raise Refused(FILE_FAILED, f"{asked.path} can't be opened", "look at the path")
    try:
        if is_unwritable(asked.path):
            raise Refused(FILE_FAILED, f"{asked.path} may not be written by this user", "run it as the journal's owner; --dry-run writes nothing")
        document = document_and_report(path_of_program, Journal(asked.path, held.file), asked, policy)
        return put_in_force(path_of_program, held, asked, document)
    finally:
        held.release()


def document_and_report(path_of_program: pathlib.Path, journal: Journal, asked: Asked, policy: bytes) -> bytes:
    """Tries the amendment and says what it does. The document that makes it; refused where it can't be made, or drops what isn't named."""
    before = in_force(journal)
    if before.first and not before.first.endswith(b"\n"):
        raise Refused(NOT_AMENDED, f"{journal.name} began with a policy whose last line has no newline, so no document brings it with commands")
    loss = loss_of(journal)
    if loss:
        sys.stderr.write(f"ucon: {loss.text(journal.name)}; it is tried on what is there\n")
    document = document_for(before.first, one_line(policy))
    reply = tried(path_of_program, journal, before.end, document)
    kinds = declared(policy)
    change = change_of(declared(before.text), kinds)
    for line in report(journal, change, kinds, reply) or unchanged(before.text, policy) * asked.is_dry:
        print(line, flush=True)
    if not reply.startswith(b"ok"):
        hint = "keep each kind as it is, bounds included, or give the attribute another name"
        raise Refused(NOT_AMENDED, f"{journal.name}: the amendment is answered `{reply.decode()}`", hint)
    hold_drops(journal.name, change, asked.drops)
    return document


def hold_drops(name: str, change: Change, drops: List[str]) -> None:
    missing = [it for it in change.gone if it not in drops]
    if missing:
        hint = f"`--drop {' '.join(change.gone)}` amends all the same; declare them in the new policy, and they keep their values"
        raise Refused(NOT_AMENDED, f"{name} wasn't amended: {', '.join(missing)} would lose all values", hint)
    others = [it for it in drops if it not in change.gone]
    if others:
        raise Refused(NOT_AMENDED, f"{name} wasn't amended: {', '.join(others)} isn't dropped by it", "name what loses its values")


def put_in_force(path_of_program: pathlib.Path, held: Lock, asked: Asked, document: bytes) -> int:
    with tempfile.TemporaryFile() as source, tempfile.TemporaryFile() as output:
        source.write(document)
        source.flush()
        source.seek(0)
        keeper = Keeper(asked.path, held, asked.accepts_loss, behind=BEHIND_FILE)
        ended = keeper.run([str(path_of_program), "play", asked.path], True, source, output)
        output.seek(0)
        return say_made(asked, ended, output.read())


def say_made(asked: Asked, ended: Ended, output: bytes) -> int:
    sys.stderr.write(ended.errors.decode(errors="replace"))
    if ended.status == 0:
        print(f"amended: {output.split(b' ', 2)[2].decode().rstrip()}, at place {output.split()[1].decode()}")
        print(KEPT_FIRST.format(asked.path))
    return ended.status
