"""The program as it is written: compiled once without any proof, and kept by the sum of its sources.

What is compiled is what `rt try` compiles, so a check stands at each step that a proof would rule out: a sum that doesn't fit, a cast that
loses bits, a shift too wide, a zero divisor, a place that isn't aligned, a null or a value that its type hasn't. A check that fails ends the
program by signal 4. What is written and read through raw pointers isn't watched."""
import contextlib
import os
import pathlib
import shutil
import sys
import time
from typing import List, NamedTuple, Optional

from launcher import kit, program, sources

# How far clang optimizes: a level higher takes longer and makes nothing faster, and a level lower makes it a hundred times slower.
LEVEL = "-O1"
# How many programs stay in a folder, the newest first.
KEPT = 4
A_DAY = 24 * 3600
WAITING = "ucon: compiling the program as it is written, once: about a minute"


class Place(NamedTuple):
    """Where a program is kept, and a name beside it that it is written by before."""

    target: pathlib.Path
    beside: pathlib.Path


def folders() -> List[pathlib.Path]:
    """Where programs are kept: in the checkout, or, where that can't be written, in the user's cache."""
    cache = os.environ.get("XDG_CACHE_HOME", "")
    home = pathlib.Path(cache) if os.path.isabs(cache) else pathlib.Path(os.path.expanduser("~")) / ".cache"
    return [program.TOP / "out" / "written", home / "ucon" / "written"]


def name(of: program.Program) -> str:
    return f"{of.crate}-{sources.sum_of(sources.as_written(of), LEVEL)[:32]}"


def kept(of: program.Program = program.RUNS) -> Optional[pathlib.Path]:
    """The program of these sources, where it was compiled before."""
    named = name(of)
    return next((folder / named for folder in folders() if os.access(folder / named, os.X_OK)), None)


def make(of: program.Program = program.RUNS) -> pathlib.Path:
    """Compiles the program and keeps it. Where one was kept meanwhile it is as good. Fails by `kit.Failed`."""
    tools = kit.folder()
    place = place_to_write(name(of))
    import tempfile

    print(WAITING, file=sys.stderr, flush=True)
    try:
        with program.ended_by_signals(), tempfile.TemporaryDirectory(prefix="ucon-written-") as folder:
            room = pathlib.Path(folder)
            made = room / "program"
            kit.link(tools, kit.module_of(tools, of.folder, room), [LEVEL], made, room)
            shutil.copyfile(made, place.beside)
        place.beside.chmod(0o755)
        place.beside.replace(place.target)
    except OSError as why:
        raise kit.Failed(f"the program as written can't be kept: {why}") from why
    finally:
        with contextlib.suppress(OSError):
            place.beside.unlink()
    clear(place.target.parent, of)
    return place.target


def place_to_write(named: str) -> Place:
    """The first of the folders that can be written, found out before a minute is spent."""
    causes = []
    for folder in folders():
        beside = folder / f".{named}.{os.getpid()}"
        try:
            folder.mkdir(parents=True, exist_ok=True)
            beside.write_bytes(b"")
            return Place(folder / named, beside)
        except OSError as why:
            causes.append(f"{folder}: {why.strerror}")
    raise kit.Failed(f"the program as written can be kept nowhere ({'; '.join(causes)}): XDG_CACHE_HOME=FOLDER names another folder")


def clear(folder: pathlib.Path, of: program.Program) -> None:
    """Takes away older programs of one crate, and what launchers left that were killed."""
    with contextlib.suppress(OSError):
        made = sorted(folder.glob(f"{of.crate}-*"), key=lambda file: file.stat().st_mtime, reverse=True)
        left = [file for file in folder.glob(f".{of.crate}-*") if file.stat().st_mtime < time.time() - A_DAY]
        for file in made[KEPT:] + left:
            file.unlink()
