"""What `.ci/journals` runs words in: a folder with a program, or with a stand-in for it, and what is expected of them."""
import os
import pathlib
import subprocess
import sys
import tempfile
import time
from typing import IO, Callable, Dict, List, Optional

TOP = pathlib.Path(__file__).resolve().parent.parent
sys.path.insert(0, str(TOP))

from checks.runs import journal_with  # noqa: E402
from launcher import asking, journal, kit, lock, program as programs, which  # noqa: E402

UCON = TOP / "ucon"
POLICY = b"right r {}\n"
DOCUMENT = POLICY + b"%%\nclient 0\n"

# Does of `play` what these tests need: it cuts what stands behind the records, makes a step of each command, and answers `ok`.
STAND_IN = """#!{python}
import os, sys, time
sys.path.insert(0, {top!r})
from launcher import journal
policy, _, script = sys.stdin.buffer.read().partition(b"%%\\n")
if b"{{" in policy and b"}}" not in policy:
    sys.exit(2)
try:
    file = os.open(sys.argv[2], os.O_RDWR | os.O_CREAT, 0o666)
    it = journal.Journal(sys.argv[2], file)
    records = list(it.walk()) if it.magic() else []
    if it.size <= 9:
        os.ftruncate(file, 0)
        os.pwrite(file, b"UCONJR02\\0", 0)
    at = records[-1][0] + 5 + len(records[-1][1]) if records else 8
    os.ftruncate(file, at + 1)
    os.pwrite(file, b"\\0", at)
    lines = [line for line in script.splitlines() if line and not line.startswith(b"client")]
    made = [] if records else [policy]
    made += [b"0 " + line + b"\\nok" for line in lines if not line.startswith(b"look")]
    for payload in made:
        os.pwrite(file, len(payload).to_bytes(4, "big") + payload + b"\\0", at + 1)
        os.pwrite(file, b"\\1", at)
        at += 5 + len(payload)
    steps = len(records) + len(made) - 1
    for n, line in enumerate(lines):
        print("0", steps - len(lines) + n + 1, "ok")
except OSError:
    sys.stderr.write("ucon: disk fault\\n")
    sys.exit(6)
except journal.Refused as why:
    sys.exit(why.status)
"""

failures: List[str] = []


def check(name: str, holds: bool, *seen: object) -> None:
    if not holds:
        failures.append(name)
        print(f"journals: {name}")
        for it in seen:
            print(f"  {it!r}")


def equal(name: str, got: object, wanted: object) -> None:
    check(name, got == wanted, got, wanted)


class Room:
    """A folder with a program, where words are run."""

    def __init__(self, folder: pathlib.Path, program: pathlib.Path) -> None:
        self.folder = folder
        self.program = program
        self.env: Dict[str, str] = {**os.environ, "UCON_PROGRAM": str(program)}

    def ran(self, *words: str, document: bytes = b"", **more: object) -> "subprocess.CompletedProcess[bytes]":
        """Runs words with a document that comes through a pipe."""
        return subprocess.run(
            [sys.executable, str(UCON), *words], cwd=self.folder, input=document, stdout=subprocess.PIPE, stderr=subprocess.PIPE, check=False,
            env=self.env, timeout=60, **more,
        )

    def ran_over(self, document: IO[bytes], *words: str) -> "subprocess.CompletedProcess[bytes]":
        """Runs words over a document that is a file."""
        out = subprocess.PIPE
        words_of = [sys.executable, str(UCON), *words]
        return subprocess.run(words_of, cwd=self.folder, stdin=document, stdout=out, stderr=out, check=False, env=self.env, timeout=60)

    def started(self, *words: str, **env: str) -> "subprocess.Popen[bytes]":
        return subprocess.Popen(
            [sys.executable, str(UCON), *words], cwd=self.folder, stdin=subprocess.PIPE, stdout=subprocess.PIPE, stderr=subprocess.PIPE,
            env={**self.env, **env},
        )

    def put(self, raw: bytes, name: str = "j") -> pathlib.Path:
        """A file with these bytes, and no companion."""
        for companion in self.folder.glob(f"{name}.*"):
            companion.unlink()
        path = self.folder / name
        path.write_bytes(raw)
        return path

    def names(self) -> List[str]:
        return sorted(it.name for it in self.folder.iterdir())


def steps(count: int, first: int = 1) -> List[bytes]:
    return [b"0 subject s%d\nok" % n for n in range(first, first + count)]


def lines(count: int, first: int = 1) -> bytes:
    """A document that makes these steps."""
    return DOCUMENT + b"".join(b"subject s%d\n" % n for n in range(first, first + count))


def has_forms(program: pathlib.Path) -> bool:
    """Whether a program has the forms that `state`, `verify` and `carry` stand on."""
    with tempfile.TemporaryDirectory(prefix="ucon-forms-") as folder:
        path = pathlib.Path(folder) / "shown"
        path.write_bytes(journal_with([POLICY, b"0 subject a\nok"]))
        return all(asking.answered(program, [form, str(path)], POLICY).status == 0 for form in ("report", "audit"))


def program_to_try(stand_in: pathlib.Path, of: programs.Program = programs.RUNS) -> pathlib.Path:
    """The program that ./ucon runs, compiled as it is written where it isn't built. The stand-in where none can be had."""
    try:
        return which.find(of).path
    except kit.Failed as why:
        print(f"journals: {why}")
        return stand_in


def refused(call: Callable[[], object]) -> Optional[journal.Refused]:
    try:
        call()
    except journal.Refused as why:
        return why
    return None


def until(holds: Callable[[], bool], seconds: float = 20) -> bool:
    """Waits until this holds, at most so long."""
    ends = time.monotonic() + seconds
    while not holds() and time.monotonic() < ends:
        time.sleep(0.01)
    return holds()


def holders_of(path: pathlib.Path) -> List[int]:
    file = os.open(path, os.O_RDONLY)
    try:
        return lock.holders(file)
    finally:
        os.close(file)
