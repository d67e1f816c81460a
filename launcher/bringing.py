"""Forms whose document is brought by the launcher: behind `--script FILE` stands a script alone, and `--journal-policy` brings no line.

The policy is the one that the journal began with, which is its record 0: so nobody has to keep it. The whole document takes the place of
standard input; places in it are told as those of the script's file."""
import os
import re
import sys
from typing import List, NamedTuple, Optional, Tuple

from launcher.journal import FILE_FAILED, Refused, no_policy, open_journal
from launcher.program import Ended, Input, file_of, input_name

SCRIPT, POLICY_ALONE = "--script", "--journal-policy"
# The forms that take the one or the other. What holds a conversation reads the journal's policy itself.
WITH_SCRIPT, WITHOUT_LINES = ("play", "serve", "board"), ("point", "audit", "report", "explain")
DIVIDER = b"%%\n"
# The document can't be brought.
NOT_BROUGHT = 121
# What the program says of a policy that it refuses, or that is another one, and what it ends with then.
POLICY_REFUSED = re.compile(rb"^ucon: (?:policy: |other policy at ).*\n", re.M)
REFUSED = (2, 10)
# More than the program takes; it says so then.
ENOUGH = 4_194_305


class Brought(NamedTuple):
    """The words of the form itself, and the file of its script: `-` is standard input, and None is no script."""

    words: List[str]
    script: Optional[str]


def of(words: List[str]) -> Optional[Brought]:
    """What words of a form bring. None where the document comes on standard input."""
    if words[0] in WITH_SCRIPT and words[2:3] == [SCRIPT]:
        return Brought(words[:2], words[3])
    if words[0] in WITHOUT_LINES and words[-1] == POLICY_ALONE:
        return Brought(words[:-1], None)
    return None


def put(brought: Brought) -> Tuple[List[str], Input]:
    """Puts the document in the place of standard input. The form's words, and what is read."""
    from launcher.asking import first_policy

    journal = brought.words[1]
    with open_journal(journal) as it:
        policy = first_policy(it)
    front, lines, name = policy, b"", f"the policy of {journal}"
    if brought.script is not None:
        if policy and not policy.endswith(b"\n"):
            says = f"{journal} began with a policy whose last line has no newline, so no document brings it with commands"
            raise Refused(NOT_BROUGHT, says, f"`ucon converse {journal} {POLICY_ALONE}` takes lines `CLIENT COMMAND`")
        front = policy + DIVIDER
        name, lines = script_of(brought.script)
    with file_of(front + lines) as document:
        os.dup2(document.fileno(), 0)
    return brought.words, Input(name, 0, len(front))


def look(words: List[str]) -> None:
    """A conversation under the journal's own policy makes no journal: refused where there is none, as other words over it are."""
    from launcher.asking import first_policy

    if words[0] == "converse" and words[-1] == POLICY_ALONE:
        with open_journal(words[1]) as it:
            first_policy(it)


def judged(journal: str, ended: Ended) -> Ended:
    """How a run ended whose policy was the journal's: where that one is refused, the journal's record 0 is wrong."""
    if ended.status not in REFUSED:
        return ended
    why = no_policy(journal)
    return Ended(why.status, POLICY_REFUSED.sub(b"", ended.errors) + why.text().encode())


def script_of(file: str) -> Tuple[str, bytes]:
    """The name of a script, and its bytes; of one that is too long as many as show that."""
    if file == "-":
        return input_name(), sys.stdin.buffer.read(ENOUGH)
    try:
        with open(file, "rb") as script:
            return file, script.read(ENOUGH)
    except OSError as why:
        hint = f"name a file with commands below headings `client N`; `{SCRIPT} -` reads them from standard input"
        raise Refused(FILE_FAILED, f"{file} can't be read: {why.strerror}", hint) from None
