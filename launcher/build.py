"""Proves the crates and builds the program, saying how far it is."""
import contextlib
import fcntl
import os
import pathlib
import subprocess
import sys
import time
from typing import Dict, Iterator, List, NamedTuple, Optional

from launcher import program, sources

LOG = program.TOP / "out" / "build.log"
LOCK = program.TOP / "out" / "prove.lock"
TIMES = program.TOP / "launcher" / "minutes.tsv"
# How long one crate may take, in seconds. The longest take some minutes.
LONGEST = 2 * 3600


def say(line: str) -> None:
    print(f"ucon: {line}", file=sys.stderr, flush=True)


# ---- whether it is there


def is_built() -> bool:
    """Whether the program that is chosen, or else the proved one of these sources, is there."""
    chosen = program.chosen()
    return is_proved() if chosen is None else os.access(chosen, os.X_OK)


def stamp_at(of: program.Program) -> pathlib.Path:
    """Where it is noted of which sources a proved program is."""
    return of.folder / "out" / "built_by_ucon"


def is_proved(of: program.Program = program.RUNS) -> bool:
    """Whether the proved program is there: nothing that it is built from is newer than it, or than its last build, or it is stamped."""
    built = program.proved(of)
    if not os.access(built, os.X_OK):
        return False
    if not program.has_sources():
        return True
    made = max(mark.stat().st_mtime for mark in (built, stamp_at(of)) if mark.exists())
    return all(file.stat().st_mtime <= made for file in sources.as_proved(of)) or is_stamped(of)


def is_stamped(of: program.Program = program.RUNS) -> bool:
    """Whether `./ucon prove` made this very program, of these sources."""
    try:
        return stamp_at(of).read_text() == stamp_of(of, sources.sum_of(sources.as_proved(of)))
    except OSError:
        return False


def are_stamped() -> bool:
    """Whether `./ucon prove` made the programs, of these sources."""
    return all(map(is_stamped, program.PROGRAMS))


def stamp_of(of: program.Program, sum_of_sources: str) -> str:
    return f"sources {sum_of_sources}\nprogram {sources.sum_of([program.proved(of)])}\n"


# ---- how long it takes


def minutes_of_crates() -> Dict[str, float]:
    """By crate, the minutes of its proof in a run of the gate (docs/lab/cheap-proofs.md). Empty if there is no table of them."""
    found: Dict[str, float] = {}
    column: Optional[int] = None
    for line in TIMES.read_text().splitlines() if TIMES.is_file() else []:
        cells = line.split("\t")
        if "crate" in cells and "proof" in cells:
            column = cells.index("proof")
        elif column is not None and len(cells) > column and cells[column].replace(".", "", 1).isdigit():
            found.setdefault(cells[0], float(cells[column]))
    return found


class Pace(NamedTuple):
    """How far a build is, by the minutes that the table gives each crate; one that isn't in it takes what they take on average."""

    order: List[str]
    minutes: Dict[str, float]

    def share(self, crates: List[str]) -> float:
        known = [self.minutes[name] for name in self.order if name in self.minutes]
        average = sum(known) / len(known) if known else 1.0
        return sum(self.minutes.get(name, average) for name in crates)

    def left(self, done: int, seconds: float) -> str:
        """What is left behind the first crates, which took so long."""
        if not done:
            return "up to an hour left, less where crates were proved here before"
        left = seconds * self.share(self.order[done:]) / max(self.share(self.order[:done]), 0.1)
        return f"{in_words(seconds)} so far, about {in_words(left)} left"


def in_words(seconds: float) -> str:
    if seconds < 90:
        return f"{seconds:.0f} seconds"
    return f"{seconds / 60:.0f} minutes"


# ---- proving


@contextlib.contextmanager
def alone() -> Iterator[bool]:
    """Holds off another `./ucon prove` of this checkout. Whether there is none."""
    LOCK.parent.mkdir(exist_ok=True)
    with open(LOCK, "w") as lock:
        try:
            fcntl.flock(lock, fcntl.LOCK_EX | fcntl.LOCK_NB)
        except BlockingIOError:
            yield False
        else:
            yield True


def step(name: str, words: List[str], log) -> int:
    log.write(f"== {name}: {' '.join(words)}\n".encode())
    log.flush()
    how = {"cwd": program.TOP / "crates" / name, "stdin": subprocess.DEVNULL, "stdout": log, "stderr": log}
    try:
        with program.started(words, end, **how) as tool:
            return tool.wait(LONGEST)
    except subprocess.TimeoutExpired:
        log.write(f"{name} took more than {LONGEST} seconds\n".encode())
        log.flush()
        return 1


def end(tool: "subprocess.Popen[bytes]") -> None:
    """Ends rt, where it still runs: it ends what it started, if it is let."""
    if tool.poll() is None:
        tool.terminate()
        try:
            tool.wait(20)
        except subprocess.TimeoutExpired:
            tool.kill()
            tool.wait()


def prove() -> bool:
    """Proves each crate in turn and builds the programs, where that isn't done. Whether they are there then."""
    if not program.has_sources():
        say("prove needs the repository; this copy has the proved programs")
        return False
    if are_stamped():
        say(f"the proved program of these sources is there: {program.proved()}")
        return True
    if not program.is_command("rt"):
        say("rt, the command of the Rattle kit, is not on the PATH: put the kit's folder bin there")
        return False
    try:
        with alone() as is_alone, program.ended_by_signals():
            if not is_alone:
                say(f"another ./ucon prove is at work in this checkout; its log is {LOG}")
            return is_alone and prove_all()
    except KeyboardInterrupt:
        say("what was proved so far is kept, and ./ucon prove goes on from there")
        raise
    except OSError as why:
        say(f"proving needs to write below {program.TOP}: {why}")
        return False


def prove_all() -> bool:
    order = crates_in_turn()
    jobs = ["--jobs", str(len(os.sched_getaffinity(0)))]
    pace = Pace(order, minutes_of_crates())
    began, of_sources = time.time(), [sources.sum_of(sources.as_proved(of)) for of in program.PROGRAMS]
    say(f"proving {len(order)} crates and building the programs; the log is {LOG}")
    with open(LOG, "wb") as log:
        for n, name in enumerate(order):
            say(f"{name}, {n + 1} of {len(order)}: {pace.left(n, time.time() - began)}")
            if step(name, words_for(name, jobs), log):
                return failed(name)
    with contextlib.suppress(OSError):
        os.unlink(unkept())
    for of in program.PROGRAMS:
        if not os.access(program.proved(of), os.X_OK):
            return failed(of.crate)
        # A later change is newer than the program, also one that was made while it was being built.
        os.utime(program.proved(of), (began, began))
    if [sources.sum_of(sources.as_proved(of)) for of in program.PROGRAMS] != of_sources:
        say("the sources changed while they were being proved: ./ucon prove again proves what changed")
        return False
    for of, its_sources in zip(program.PROGRAMS, of_sources):
        stamp(of, its_sources, began)
    say(f"proved and built in {in_words(time.time() - began)}; from now on ./ucon runs {program.proved()}")
    return True


def crates_in_turn() -> List[str]:
    """The crates below the programs, and each program behind those that it stands on."""
    order: List[str] = []
    for of in program.PROGRAMS:
        order += [name for name in sources.crates_below(of.crate) if name not in order]
    return order


def words_for(name: str, jobs: List[str]) -> List[str]:
    of = next((it for it in program.PROGRAMS if it.crate == name), None)
    if of is None:
        return ["rt", "lib", *jobs]
    # So that what stands there then is what is built now, whoever put something else there.
    with contextlib.suppress(FileNotFoundError):
        program.proved(of).unlink()
    # An empty document is accepted, and so is a conversation without lines over a journal that isn't there: the program's own status is 0.
    return ["rt", "run", *jobs, "--", "check" if of == program.RUNS else unkept()]


def unkept() -> str:
    """The journal of a conversation without lines, which is taken away again."""
    import tempfile

    return os.path.join(tempfile.gettempdir(), f"ucon-prove-{os.getpid()}.journal")


def stamp(of: program.Program, of_sources: str, began: float) -> None:
    """Notes of which sources a program is."""
    place = stamp_at(of)
    fresh = place.with_name(f".{place.name}.{os.getpid()}")
    fresh.write_text(stamp_of(of, of_sources))
    os.utime(fresh, (began, began))
    fresh.replace(place)


def failed(name: str) -> bool:
    sys.stderr.write("".join(f"  {line}\n" for line in LOG.read_text(errors="replace").splitlines()[-12:]))
    say(f"{name} could not be built; the whole log is {LOG}")
    return False
