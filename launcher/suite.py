"""Tests of policies: each NAME.ucon of a folder is run and compared with what stands beside it.

    NAME.out      what it prints; nothing where the file isn't there, and then NAME.err says why
    NAME.err      what the program says on standard error; not compared where the file isn't there
    NAME.status   its status; without this file 0, or where NAME.err stands any other
    NAME.args     the form's words, one a line; without this file trial
"""
import difflib
import pathlib
import subprocess
import sys
from typing import Iterator, List, NamedTuple, Optional

from launcher import program

# How long one test may take, in seconds.
LONGEST = 120
# The status of one that took longer.
TOO_LONG = 124


class Answer(NamedTuple):
    status: int
    output: bytes
    errors: bytes


class Case(NamedTuple):
    path: pathlib.Path

    def beside(self, ending: str) -> Optional[bytes]:
        file = self.path.with_suffix(ending)
        return file.read_bytes() if file.is_file() else None

    @property
    def words(self) -> List[str]:
        given = self.beside(".args")
        return ["trial"] if given is None else given.decode().split()


def answer(path_of_program: pathlib.Path, case: Case) -> Answer:
    words = [str(path_of_program), *case.words]
    with open(case.path, "rb") as document:
        try:
            ran = subprocess.run(words, stdin=document, stdout=subprocess.PIPE, stderr=subprocess.PIPE, check=False, timeout=LONGEST)
        except subprocess.TimeoutExpired as late:
            return Answer(TOO_LONG, late.stdout or b"", b"it was ended after %d seconds\n" % LONGEST)
    return Answer(program.ended_as(ran.returncode), ran.stdout, ran.stderr)


def lines(text: bytes) -> List[str]:
    return [f"{line}\n" for line in text.decode(errors="backslashreplace").splitlines()]


def diff(wanted: bytes, got: bytes, name: str) -> Iterator[str]:
    if wanted != got:
        yield from difflib.unified_diff(lines(wanted), lines(got), name, "what came")
        if wanted.splitlines() == got.splitlines():
            yield "they differ in how lines end\n"


def differences(case: Case, got: Answer) -> Iterator[str]:
    out, err, status = (case.beside(ending) for ending in (".out", ".err", ".status"))
    if out is None and err is None:
        yield f"no {case.path.stem}.out says what it prints\n"
        return
    yield from diff(out or b"", got.output, f"{case.path.stem}.out")
    if err is not None:
        yield from diff(err, got.errors, f"{case.path.stem}.err")
    elif got.status and status is None:
        yield from (f"+{line}" for line in lines(got.errors))
    wanted = status.decode().strip() if status is not None else "0" if err is None else "not 0"
    if wanted != str(got.status) and (wanted != "not 0" or got.status == 0):
        yield f"status {wanted} is wanted, and {got.status} came\n"


def run(folders: List[str], path_of_program: pathlib.Path) -> int:
    """Runs all tests of these folders over a program. 1 where one failed, or there was none."""
    cases = [Case(path) for folder in folders for path in sorted(pathlib.Path(folder).glob("*.ucon"))]
    if not cases:
        print(f"ucon: no NAME.ucon stands in {' '.join(folders)}", file=sys.stderr)
    failed = 0
    for case in cases:
        found = "".join(differences(case, answer(path_of_program, case)))
        failed += found != ""
        sys.stdout.write(found and f"FAILED {case.path}\n{found}")
    print(f"{len(cases) - failed} passed, {failed} failed")
    return 1 if failed or not cases else 0
