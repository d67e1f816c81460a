"""The forms of words that the program has, and what `--help` and `--version` say."""
import os
import re
import subprocess
from typing import Callable, Dict, List, NamedTuple, Optional, Tuple

from launcher import program
from launcher.near import near
from launcher.script import NAME


class Form(NamedTuple):
    """One form of words."""

    words: str
    says: str
    example: str

    @property
    def name(self) -> str:
        return self.words.split()[0]


# One line a form.
KNOWN = [
    Form("trial", "runs the script under the policy, and prints a reply for each command", "./ucon trial < examples/first.ucon"),
    Form("check", "prints which core models of usage control each right makes", "./ucon check < examples/music.ucon"),
    Form("gen SEED SIZE", "draws SIZE commands, 1 to 100000, from a number, runs them, and prints counts; reads nothing", "./ucon gen 1 1000"),
    Form(
        "play JOURNAL [--script FILE]",
        "runs the script over a journal, a file that keeps each step",
        "./ucon play door.journal < door.ucon",
    ),
    Form(
        "serve JOURNAL [--script FILE]",
        "runs each client of the script in a thread of its own, over a journal",
        "./ucon serve door.journal < door.ucon",
    ),
    Form(
        "board JOURNAL [--script FILE]",
        "does so too, and reads each look off a board, without waiting for a step",
        "./ucon board door.journal < door.ucon",
    ),
    Form(
        "live JOURNAL",
        "does as serve while the document is still being written: each line is answered once it is there, and printed at the end",
        "./ucon live door.journal < door.ucon",
    ),
    Form(
        "point JOURNAL [--journal-policy]",
        "adds a checkpoint to a journal, and runs no line of the script",
        "./ucon point door.journal < door.ucon",
    ),
    Form(
        "converse JOURNAL [--journal-policy]",
        "answers lines one by one over a journal, each told once its step is kept; the policy comes first, or is the journal's",
        "./ucon converse door.journal --journal-policy",
    ),
    Form(
        "audit JOURNAL [K HEX] [--journal-policy]",
        "checks each record of a journal from the first one on, and prints its head; K records and HEX are a head that was kept",
        "./ucon audit door.journal < door.ucon",
    ),
    Form(
        "report JOURNAL [--journal-policy]",
        "checks a journal so, and prints its state as JSON",
        "./ucon report door.journal < door.ucon",
    ),
    Form(
        "explain JOURNAL SUBJECT RIGHT OBJECT [--journal-policy]",
        "says what a try would meet now, and on which values; runs no line of the script",
        "./ucon explain door.journal ann enter hall < door.ucon",
    ),
]
# Forms that the program doesn't have yet. A name goes from here when its form comes.
COMING: Tuple[str, ...] = ()
FORMS = [form for form in KNOWN if form.name not in COMING]

# What the launcher itself does.
OWN = [
    Form(
        "test DIR ..",
        "runs each NAME.ucon of a folder, and compares with NAME.out, and with NAME.err and NAME.status if they are there",
        "./ucon test examples",
    ),
    Form("lint FILE", "warns of what a policy does that may surprise; lint --strict ends with 1 then", "./ucon lint examples/music.ucon"),
    Form("prove", "proves every crate below the program and builds it, about an hour; from then on that one is run", "./ucon prove"),
    Form(
        "log JOURNAL [--from N] [--follow] [--json]",
        "prints each step of a journal: its place, client, command and reply; from a place on, as steps come, or as JSON",
        "./ucon log door.journal --from 100",
    ),
    Form("policy JOURNAL [--first]", "prints the policy in force in a journal, or the one that it began with", "./ucon policy door.journal"),
    Form(
        "copy JOURNAL NEW",
        "makes a copy that is whole, also while the journal is written; it replaces no file",
        "./ucon copy door.journal backup.journal",
    ),
    Form(
        "amend JOURNAL FILE [--dry-run] [--drop NAME ..] [--accept-loss]",
        "puts the policy of a file in force, tried on a copy first, and says who is revoked; --drop names what loses its values",
        "./ucon amend door.journal new.policy --dry-run",
    ),
    Form(
        "front --journal JOURNAL --users USERS ..",
        "serves a journal over HTTP, with events and a console; front add-user makes users, front --help tells of all words",
        "./ucon front --journal door.journal --policy door.ucon --users door.users",
    ),
    Form(
        "state JOURNAL [--json | --metrics]",
        "prints what stands in a journal: the tick, values, who uses what; as JSON, or as counts for Prometheus",
        "./ucon state door.journal",
    ),
    Form(
        "verify JOURNAL [--head FILE]",
        "checks each record of a journal again, whether it goes on from a head that was kept, and what was told",
        "./ucon verify door.journal --head monday.head",
    ),
    Form(
        "carry JOURNAL NEW",
        "makes a fresh journal that goes on where one is, without its past; new numbers are kept in NEW.carried",
        "./ucon carry door.journal fresh.journal",
    ),
    Form("--help", "this page", ""),
    Form("--version", "the commit, and whether the program that is run is the proved one", ""),
]
# Words that there were once, and what stands in their place.
GONE = {
    "quick": "`quick` is gone, since `./ucon FORM` is as quick: where no proved program is built, the program as it is written is compiled once",
}


def is_decimal(word: str, least: int, greatest: int) -> bool:
    return re.fullmatch("0|[1-9][0-9]*", word) is not None and least <= int(word) <= greatest


def is_name(word: str) -> bool:
    return NAME.fullmatch(os.fsencode(word)) is not None


# What stands for a word in capitals.
ARGUMENTS: Dict[str, Callable[[str], bool]] = {
    "SEED": lambda word: is_decimal(word, 0, 2**64 - 1),
    "SIZE": lambda word: is_decimal(word, 1, 100_000),
    "JOURNAL": lambda word: word != "",
    "SUBJECT": is_name,
    "RIGHT": is_name,
    "OBJECT": is_name,
    "K": lambda word: is_decimal(word, 0, 2**64 - 1),
    "HEX": lambda word: re.fullmatch("[0-9a-f]{64}", word) is not None,
    "FILE": lambda word: word != "",
}


def fits(form: Form, words: List[str]) -> bool:
    """Whether words are a form's: first those that it needs, and then those of each part between brackets, or none of it."""
    needed, *optional = (part.rstrip("]").split() for part in form.words.split(" ["))
    if not starts(needed, words):
        return False
    left = words[len(needed) :]
    for part in optional:
        left = left[len(part) :] if starts(part, left) else left
    return not left


def starts(part: List[str], words: List[str]) -> bool:
    """Whether words begin with those of a part of a form."""
    return len(part) <= len(words) and all(ARGUMENTS[it](word) if it.isupper() else it == word for it, word in zip(part, words))


def form_of(words: List[str]) -> Optional[Form]:
    """The form that these words are. None where they are none."""
    return next((form for form in FORMS if fits(form, words)), None)


def row(form: Form) -> str:
    example = f"{'':18}{in_place(form.example)}\n" if form.example else ""
    words = f"{form.words:<15} " if len(form.words) < 16 else f"{form.words}\n{'':18}"
    return f"  {words}{form.says}\n{example}"


def in_place(example: str) -> str:
    """An example as it is typed here: an installed command is found on the PATH, and has no examples beside it."""
    if program.has_sources():
        return example
    return re.sub(r"\S+\.ucon\b", "DOCUMENT", example.replace("./ucon", "ucon")).replace("test examples", "test DIR")


def own_forms() -> List[Form]:
    """What the launcher does here: an installed copy has no sources to prove."""
    return [form for form in OWN if program.has_sources() or form.name != "prove"]


OF_SOURCES = """\
Where no proved program is built, or its sources changed, the program as it is written is compiled once, in about a minute, and kept
below out/, or below XDG_CACHE_HOME where the checkout can't be written; then a line on standard error says so.
Pages: docs/policy-language.md, docs/commands.md, docs/errors.md, docs/grammar.md; of a journal in use docs/operating.md; the manual page:
man docs/ucon.1
"""
INSTALLED = "The manual page: man ucon\n"
NOTES = """\
After a fault of a document that is a file, the place, the line and a hint follow the program's own line.
With --script FILE no document comes on standard input: FILE has the script alone (- is standard input), and the policy is the one that
the journal began with. With --journal-policy it is that policy, and no script.
WORD --help tells of one word. An input that ends before its line %% begins no journal: it may be the front of a document.
A journal has one writer at a time, and what was told of it stands beside it, in JOURNAL.told. Where it lacks some of that, play,
serve, board, live, point, converse and explain are refused before anything is written; --accept-loss behind JOURNAL goes on with
what is there, as does amend with it behind FILE. What an opening cuts off behind the last whole record is kept in JOURNAL.torn.
UCON_PROGRAM=FILE runs that program in place of the proved one, and UCON_CONVERSE=FILE that one for converse.
"""


def help_text() -> str:
    return (
        "ucon: a usage control monitor. A document comes on standard input: a policy, a line %%, and a script.\n\n"
        f"{''.join(map(row, FORMS))}\n{''.join(map(row, own_forms()))}\n{OF_SOURCES if program.has_sources() else INSTALLED}"
        f"{NOTES}"
    )


def help_of(words: List[str]) -> Optional[str]:
    """What is said of one word where its help is asked for: `WORD --help`, or `help WORD`. None where it isn't."""
    if len(words) != 2 or not (words[0] == "help" or words[1] in ("--help", "-h")):
        return None
    name = words[1] if words[0] == "help" else words[0]
    return next((row(form) for form in FORMS + own_forms() if form.name == name and form.example), None)


def instead(first: str) -> str:
    """What was probably meant by a first word that is none of the forms'."""
    from launcher.near import near

    similar = near(first, [form.name for form in FORMS + own_forms()])
    if similar:
        return f"; a similar one is `{similar}`"
    if os.path.isfile(first):
        return f"; a document comes on standard input, as in {in_place('./ucon')} trial < {first}"
    return ""


def usage_hint(words: List[str]) -> str:
    """What stands behind the program's own line where the words are no form."""
    first = words[0] if words else ""
    if len(words) == 2 and first == "help":
        first = words[1]
    named = next((form for form in FORMS + own_forms() if form.name == first), None)
    if not words:
        why = "no words were given"
    elif named in OWN:
        why = f"the form is `{named.words}`{', as in ' + in_place(named.example) if named.example else ', and no further word'}"
    elif named and len(named.words.split()) == 1:
        why = f"`{first}` takes no further words: its document comes on standard input, as in {in_place(named.example)}"
    elif named:
        why = f"the form is `{named.words}`, as in {in_place(named.example)}"
    elif first in GONE:
        why = GONE[first]
    else:
        why = f"`{first}` is no form{instead(first)}"
    if named:
        return f"hint: {why}\nhint: `{in_place('./ucon')} {first} --help` tells what it does\n"
    return f"hint: {why}\nhint: the words are {', '.join(form.name for form in FORMS + own_forms() if form.example)}; --help tells of each\n"


def commit_text() -> str:
    """The commit that the launcher is of, as far as it is known."""
    kept = program.TOP / "version"
    if kept.is_file():
        return kept.read_text().split(", ")[1]
    ran = subprocess.run(
        ["git", "-C", str(program.TOP), "describe", "--always", "--dirty"], stdout=subprocess.PIPE, stderr=subprocess.DEVNULL, check=False
    ) if program.is_command("git") else None
    return f"commit {ran.stdout.decode().strip() if ran and ran.returncode == 0 else 'unknown'}"


def kit_text() -> str:
    """The kit that the program is proved with, as the README says."""
    kit = re.search(r"Proved with `(.*?)`", (program.TOP / "README.md").read_text())
    return kit.group(1) if kit else "an unknown kit"
