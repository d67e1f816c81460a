"""Runs a program over a case, and says what it took."""
import os
import pathlib
import re
import shutil
import signal
import subprocess
from typing import List, NamedTuple, Optional

import workloads
from workloads import Case


class Program(NamedTuple):
    """A program under measure, with the words that stand before its form."""

    name: str
    path: pathlib.Path
    words: List[str]


class Taken(NamedTuple):
    """What one run took. The peak is in kilobytes; counted runs have instructions in place of time and peak."""

    seconds: float
    peak: int
    instructions: int


class Ended(NamedTuple):
    """How a run ended. The journal stands without its checkpoints."""

    status: int
    output: bytes
    journal: Optional[bytes]
    taken: Taken


class OverLimit(Exception):
    """A run that was stopped, since it took longer than it may."""


class Failed(Exception):
    """A run that couldn't be measured; what was said of it."""


class Bench:
    """A folder to work in, which holds the baseline's build, and how a run is measured."""

    def __init__(self, folder: pathlib.Path, limit: float, counts: bool) -> None:
        self.folder = folder
        self.limit = limit
        self.counts = counts
        self.built = folder / "target" / "release"

    def build(self, sources: pathlib.Path) -> None:
        self.folder.mkdir(parents=True, exist_ok=True)
        env = {**os.environ, "CARGO_TARGET_DIR": str(self.folder / "target")}
        words = ["cargo", "build", "--quiet", "--release", "--offline", "--locked", "--manifest-path", str(sources / "Cargo.toml")]
        subprocess.run(words, env=env, check=True)

    def baseline(self, strategy: str) -> Program:
        return Program("baseline" if strategy == "index" else strategy, self.built / "ucon_baseline", [strategy])

    def run(self, program: Program, form: List[str], case: Case) -> Ended:
        """Runs the program over the case; `play` gets a journal of its own, as the case says, and the baseline one without checkpoints."""
        journal = self.folder / "journal"
        if form == ["play"]:
            journal.unlink(missing_ok=True)
            if case.journal is not None:
                journal.write_bytes(workloads.without_points(case.journal) if program.words else case.journal)
                os.sync()
            form = ["play", str(journal)]
        document, output = self.folder / "document", self.folder / "output"
        document.write_bytes(case.document)
        words = [str(program.path), *program.words, *form]
        with open(document, "rb") as source, open(output, "wb") as sink:
            status, taken = self.counted(words, source, sink) if self.counts else self.timed(words, source, sink)
        kept = workloads.without_points(journal.read_bytes()) if form[0] == "play" and journal.exists() else None
        return Ended(status, output.read_bytes(), kept, taken)

    def wait(self, words: List[str], source, sink) -> "subprocess.CompletedProcess[bytes]":
        # A session of its own, so that what the measuring program started ends with it.
        child = subprocess.Popen(words, stdin=source, stdout=sink, stderr=subprocess.PIPE, start_new_session=True)
        try:
            errors = child.communicate(timeout=self.limit)[1]
        except subprocess.TimeoutExpired:
            os.killpg(child.pid, signal.SIGKILL)
            child.communicate()
            raise OverLimit from None
        return subprocess.CompletedProcess(words, child.returncode, b"", errors)

    def timed(self, words: List[str], source, sink):
        told = self.folder / "taken"
        ran = self.wait([str(self.built / "meter"), str(told), *words], source, sink)
        if ran.returncode:
            raise Failed(ran.stderr.decode(errors="replace"))
        nanoseconds, peak, status = map(int, told.read_text().split())
        return status, Taken(nanoseconds / 1e9, peak, 0)

    def counted(self, words: List[str], source, sink):
        ran = self.wait(["valgrind", "--tool=callgrind", "--callgrind-out-file=/dev/null", *words], source, sink)
        found = re.search(rb"Collected : (\d+)", ran.stderr)
        if not found:
            raise Failed(ran.stderr.decode(errors="replace"))
        return ran.returncode, Taken(0.0, 0, int(found[1]))

    def has_form(self, program: Program, form: List[str]) -> bool:
        """Whether the program knows the form: of words that are none it says how it is used."""
        words = [*form, str(self.folder / "journal")] if form == ["play"] else form
        (self.folder / "journal").unlink(missing_ok=True)
        ran = subprocess.run([str(program.path), *program.words, *words], input=b"", stdout=subprocess.PIPE, stderr=subprocess.PIPE, check=False)
        return ran.stderr != b"ucon: usage\n"


def lacks(*commands: str) -> List[str]:
    """Which of these commands aren't on the PATH."""
    return [command for command in commands if shutil.which(command) is None]
