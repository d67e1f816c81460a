"""Where the program is, and how it is run."""
import contextlib
import os
import pathlib
import signal
import stat
import subprocess
import sys
from typing import BinaryIO, Callable, Iterator, List, NamedTuple, Optional

TOP = pathlib.Path(__file__).resolve().parent.parent
# The status with which the proved program answers words that are no form, and that of a launcher that can't run it.
USAGE, FAILED = 1, 125


class Failed(Exception):
    """There is no program to run, or a tool is missing or failed; what is to be said of it."""


class Program(NamedTuple):
    """One of the programs: its crate, and the variable of the environment that names another file in its place."""

    crate: str
    variable: str

    @property
    def folder(self) -> pathlib.Path:
        return TOP / "crates" / self.crate


# What runs a form of words, and what holds a conversation.
RUNS = Program("ucon_main", "UCON_PROGRAM")
CONVERSES = Program("ucon_converse_main", "UCON_CONVERSE")
PROGRAMS = (RUNS, CONVERSES)


def has_sources() -> bool:
    """Whether this is the repository, and not an installed copy."""
    return (TOP / "crates.txt").is_file()


def is_command(name: str) -> bool:
    import shutil

    return shutil.which(name) is not None


def chosen(which: Program = RUNS) -> Optional[pathlib.Path]:
    """The program that is named in its place, by UCON_PROGRAM or UCON_CONVERSE."""
    named = os.environ.get(which.variable)
    return pathlib.Path(named).resolve() if named else None


def proved(which: Program = RUNS) -> pathlib.Path:
    """Where the proved program stands once it is built."""
    return which.folder / "out" / which.crate if has_sources() else TOP / which.crate


def path(which: Program = RUNS) -> pathlib.Path:
    """The program that was chosen, and else where the proved one stands once it is built."""
    return chosen(which) or proved(which)


class Input(NamedTuple):
    """A standard input that can be read again: the file's name as a person would write it, where reading began, and how many bytes stand
    before what is in that file."""

    name: str
    start: int
    front: int = 0

    def read(self) -> bytes:
        parts, at = [], self.start
        while True:
            part = os.pread(0, 1 << 20, at)
            if not part:
                return b"".join(parts)
            parts.append(part)
            at += len(part)


def readable_input() -> Optional[Input]:
    """Standard input, where it is a file that can be read again."""
    try:
        if not stat.S_ISREG(os.fstat(0).st_mode):
            return None
        return Input(input_name(), os.lseek(0, 0, os.SEEK_CUR))
    except OSError:
        return None


def input_name() -> str:
    """The name of the file that comes on standard input. A pipe and a terminal have none that a person would know."""
    try:
        if not stat.S_ISREG(os.fstat(0).st_mode):
            return "standard input"
        name = os.readlink("/proc/self/fd/0")
    except OSError:
        return "standard input"
    near = os.path.relpath(name)
    return name if near.startswith("..") else near


def file_of(document: bytes) -> BinaryIO:
    """A file in memory that is read from its front on."""
    made = os.fdopen(os.memfd_create("document"), "w+b")
    made.write(document)
    made.seek(0)
    return made


class Ended(NamedTuple):
    status: int
    errors: bytes


def ended_as(returncode: int) -> int:
    return returncode if returncode >= 0 else 128 - returncode


def run_kept(path_of_program: pathlib.Path, words: List[str]) -> Ended:
    """Runs a program over this standard input and output, and keeps what it says on standard error."""
    before = signal.signal(signal.SIGINT, signal.SIG_IGN)
    try:
        # The program itself still ends at Ctrl-C.
        ran = subprocess.Popen(
            [str(path_of_program), *words], stderr=subprocess.PIPE, preexec_fn=lambda: signal.signal(signal.SIGINT, signal.SIG_DFL)
        )
        errors = ran.communicate()[1]
    finally:
        signal.signal(signal.SIGINT, before)
    return Ended(ended_as(ran.returncode), errors)


def become(path_of_program: pathlib.Path, words: List[str]) -> None:
    """Goes on as a program. Nothing stands behind what it says."""
    sys.stdout.flush()
    sys.stderr.flush()
    os.execv(str(path_of_program), [str(path_of_program), *words])


@contextlib.contextmanager
def ended_by_signals() -> Iterator[None]:
    """Lets SIGTERM and SIGHUP end this call as Ctrl-C does, so that nothing stays behind."""

    def end(number: int, _: object) -> None:
        raise SystemExit(128 + number)

    before = {it: signal.signal(it, end) for it in (signal.SIGTERM, signal.SIGHUP)}
    try:
        yield
    finally:
        for it, handler in before.items():
            signal.signal(it, handler)


Tool = subprocess.Popen
ENDING = (signal.SIGINT, signal.SIGTERM, signal.SIGHUP)


@contextlib.contextmanager
def started(words: List[str], ends: "Callable[[Tool[bytes]], None]", **how: object) -> "Iterator[Tool[bytes]]":
    """Runs a tool that ends with this call, however that ends. A signal that comes while it starts waits until the tool can be ended, too."""
    before = signal.pthread_sigmask(signal.SIG_BLOCK, ENDING)
    tool = None
    try:
        tool = Tool(words, preexec_fn=lambda: signal.pthread_sigmask(signal.SIG_SETMASK, before), **how)
        signal.pthread_sigmask(signal.SIG_SETMASK, before)
        yield tool
    finally:
        signal.pthread_sigmask(signal.SIG_SETMASK, before)
        if tool:
            ends(tool)
