"""What the program answers where the launcher asks it: over a document, and of a journal by the forms that run no line, `report` and
`audit`. These read the policy that the journal began with, so nobody has to bring it, and change nothing."""
import pathlib
import subprocess
from typing import List, NamedTuple

from launcher import program
from launcher.journal import Journal, Refused, no_policy, no_record
from launcher.room import writable
from launcher.source import policy_end

# How long one answer may take, in seconds: of a journal that is as long as one gets it takes minutes.
LONGEST = 3600
# What the program ends with where the policy that it is given is refused, or isn't the journal's. A policy has at most so many bytes.
POLICY_REFUSED, LONGEST_POLICY = (2, 10), 65_536
DAMAGED_HINT = "put a copy back that is right (`ucon copy` makes one, `ucon verify` tells of one); nothing was written"


class Answered(NamedTuple):
    status: int
    output: bytes
    errors: bytes

    @property
    def line(self) -> str:
        """What the program says on standard error, without its name."""
        return self.errors.decode(errors="replace").strip().partition(": ")[2] or f"it ended with {self.status}, without a word"


def answered(path_of_program: pathlib.Path, words: List[str], document: bytes) -> Answered:
    """Runs the program over a document."""
    run, pipe = [str(path_of_program), *words], subprocess.PIPE
    try:
        # A file, and no pipe: to write one from which a program that was killed doesn't read would end this process, too.
        with program.file_of(document) as source:
            # A signal that this word ignores, of a file that grows too large, the program ignores too.
            done = subprocess.run(run, stdin=source, stdout=pipe, stderr=pipe, timeout=LONGEST, check=False, restore_signals=False)
    except subprocess.TimeoutExpired:
        raise Refused(program.FAILED, f"`{' '.join(words)}` took more than {LONGEST} seconds", "see what else runs on this machine") from None
    return Answered(program.ended_as(done.returncode), done.stdout, done.stderr)


def first_policy(journal: Journal) -> bytes:
    """The text of record 0. Refused where there is none yet."""
    first = next((payload for _, payload in journal.walk()), None) if journal.magic() else None
    if first is None:
        raise no_record(journal)
    if policy_end(first) < len(first) or len(first) > LONGEST_POLICY:
        # No document brings it whole.
        raise no_policy(journal.name)
    return first


def ask(path_of_program: pathlib.Path, journal: Journal, form: str, *more: str) -> bytes:
    """What a form prints of the journal. Refused where the program refuses it, with its own line."""
    policy = first_policy(journal)
    with writable(journal) as path:
        return held(journal.name, form, answered(path_of_program, [form, path, *more], policy)).output


def held(name: str, form: str, said: Answered) -> Answered:
    """What the program answered of a journal, or of its copy, by a form. Refused where it refused that, with its own line."""
    if said.status == program.USAGE:
        hint = "`ucon --version` says which one it is; build it anew"
        raise Refused(program.FAILED, f"the program that is run has no form `{form} JOURNAL`", hint)
    if said.status in POLICY_REFUSED:
        raise no_policy(name)
    if said.status:
        hint = DAMAGED_HINT if said.status in (7, 8) else "docs/errors.md tells of each status; nothing was written"
        raise Refused(said.status, f"{name}: {said.line}", hint)
    return said
