"""Which program a call runs: the one that UCON_PROGRAM or UCON_CONVERSE names, the proved one, or else the program as it is written."""
import enum
import os
import pathlib
import sys
from typing import NamedTuple, Optional

from launcher import program

# What few calls need is loaded where it is needed.


class Kind(enum.Enum):
    """What is known of a program."""

    CHOSEN = "named by UCON_PROGRAM"
    PROVED = "proved"
    WRITTEN = "as written, not proved"


class Found(NamedTuple):
    """A program that can be run."""

    kind: Kind
    path: pathlib.Path


PROVES = "`./ucon prove` proves and builds it, about an hour"
PROVES_AGAIN = "the sources changed since the proof; `./ucon prove` proves and builds what changed"
# The signals by which a check that fails ends the program as it is written.
CHECK_FAILED = (128 + 4, 128 + 5)


def is_there(of: program.Program = program.RUNS) -> Optional[Found]:
    """The program to be run. None where it has to be compiled, or proved, first."""
    chosen = program.chosen(of)
    if chosen:
        return Found(Kind.CHOSEN, chosen) if os.access(chosen, os.X_OK) and chosen.is_file() else None
    from launcher import build, written

    if build.is_proved(of):
        return Found(Kind.PROVED, program.proved(of))
    kept = written.kept(of) if program.has_sources() else None
    return Found(Kind.WRITTEN, kept) if kept else None


def find(of: program.Program = program.RUNS) -> Found:
    """The program to be run, compiled as it is written where there is none. Fails by `program.Failed`."""
    found = is_there(of)
    if found:
        return found
    chosen = program.chosen(of)
    if chosen:
        raise program.Failed(f"{chosen}, which {of.variable} names, is no program that can be run")
    if not program.has_sources():
        raise program.Failed(f"{program.proved(of)} is not there; ./install of the repository puts it there")
    from launcher import written

    return Found(Kind.WRITTEN, written.make(of))


def why_unproved() -> str:
    """What to do about a program that isn't proved."""
    return PROVES_AGAIN if os.access(program.proved(), os.X_OK) else PROVES


def say(found: Found) -> None:
    """Says on standard error what is run, where it isn't proved."""
    if found.kind is Kind.WRITTEN:
        print(f"ucon: {found.kind.value}: {why_unproved()}", file=sys.stderr, flush=True)


def say_check_failed(found: Found, status: int) -> None:
    if found.kind is Kind.WRITTEN and status in CHECK_FAILED:
        print("ucon: the program stopped at one of its own checks; no proved program does, so this is a fault of its code", file=sys.stderr)


def proved_text() -> str:
    """What `--version` says of the proved program."""
    from launcher import forms

    return f"ucon, {forms.commit_text()}, {Kind.PROVED.value} with {forms.kit_text()}\n"


def version_text() -> str:
    """The commit, and which program is run."""
    from launcher import forms

    found = is_there()
    if program.chosen():
        is_missing = "" if found else ", which isn't there"
        return f"ucon, {forms.commit_text()}, runs {program.chosen()} ({Kind.CHOSEN.value}){is_missing}\n"
    if program.has_sources() and not (found and found.kind is Kind.PROVED):
        return f"ucon, {forms.commit_text()}, {Kind.WRITTEN.value}{'' if found else ' (nor compiled yet)'}: {why_unproved()}\n"
    return proved_text() if program.has_sources() else (program.TOP / "version").read_text()
