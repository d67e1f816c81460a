"""Lays edits over a scratch copy of the repository and reads what the check says of each."""
import contextlib
import os
import pathlib
import re
import shutil
import signal
import subprocess
import tempfile
from typing import Dict, List, NamedTuple, Tuple

import book
from book import BROKEN, LIMIT, LOST, PROVED, REFUSED, UNTRIED, WRITTEN, Edit

# How long a check may take that the edits of a crate begin with, in seconds: where nothing is kept, all crates below are proved by it.
FIRST = 4 * 3600
LINE = re.compile(r"rt: must-fail (\w+)/([\w.-]+)\.edit: (.*)")


class Said(NamedTuple):
    kind: str
    goal: str


class Unproved(Exception):
    """Why nothing can be said of a crate's edits."""


def goal_of(said: str) -> str:
    """The file and the goal of a refusal, as the check's line names them, and what is known of it: that a value makes it false, or that the search
    gave up."""
    found = re.match(r"(?:note: )?(?:\./)?(\S+?):\d+:\d+: (?:error: )?(.*)", said)
    if not found:
        return said
    goal = re.match(r"`([^`]*)`:", found[2]) or re.search(r"\(`([^`]*)`\)", found[2]) or re.search(r"`([^`]*)`", found[2])
    known = "limit" if "`search` gave" in said else "false" if re.search(r"All of that holds|the facts known there allow", said) else ""
    return f"{found[1]} {goal[1] if goal else found[2]}{f' ({known})' if known else ''}"


def said_of(text: str) -> Said:
    """What one line of `rt must-fail` says of an edit."""
    head, _, rest = text.partition(": ")
    if text.startswith("refused"):
        kind = LOST if "names what the edit took away" in text else LIMIT if "only by a limit" in text else REFUSED
        goal = goal_of(text.partition("): ")[2] if kind != REFUSED else rest)
        return Said(WRITTEN if kind == REFUSED and goal.startswith("proofs/") else kind, goal)
    if text.startswith("NOT REFUSED"):
        return Said(PROVED, "")
    return Said(BROKEN if head == "BAD EDIT" else UNTRIED, rest)


def read(printed: str, crate: str) -> Dict[str, Said]:
    """What is said of each edit of a crate, by its name."""
    found = [LINE.fullmatch(line) for line in printed.splitlines()]
    return {it[2]: said_of(it[3]) for it in found if it and it[1] == crate}


def copy_to(room: pathlib.Path, top: pathlib.Path) -> None:
    """Copies what the check reads, without any edit."""
    for crate in book.crates(top):
        shutil.copytree(top / "crates" / crate, room / "crates" / crate, ignore=shutil.ignore_patterns("out", "must-fail"))
    for name in ("crates.txt", "HANDLES"):
        shutil.copy(top / name, room / name)


def ran(words: List[str], folder: pathlib.Path, seconds: float, jobs: int) -> Tuple[int, str]:
    """Runs a command of the kit within its time: its status and what it printed. Without an end by then the status is -1. It and its children are
    ended with this call, however that ends."""
    env = {**os.environ, "RT_JOBS": str(jobs)}
    how = {"stdin": subprocess.DEVNULL, "stdout": subprocess.PIPE, "stderr": subprocess.STDOUT, "text": True, "errors": "replace"}
    with subprocess.Popen(words, cwd=folder, env=env, start_new_session=True, **how) as started:
        try:
            printed, _ = started.communicate(timeout=seconds)
            return started.returncode, printed
        except subprocess.TimeoutExpired:
            end(started.pid)
            return -1, started.communicate()[0] or ""
        except BaseException:
            end(started.pid)
            raise


def end(group: int) -> None:
    with contextlib.suppress(ProcessLookupError):
        os.killpg(group, signal.SIGKILL)


def prove(room: pathlib.Path, crate: str, jobs: int) -> None:
    """Proves the crate as it stands, over what earlier checks on this machine kept, so that its edits have something to begin with."""
    status, printed = ran(["rt", "check", "--jobs", str(jobs)], room / "crates" / crate, FIRST, jobs)
    if status:
        last = printed.strip().splitlines()[-1:] or ["it said nothing"]
        raise Unproved(f"{crate} isn't proved as it stands, so its edits say nothing: {last[0] if status > 0 else 'out of time'}")


def try_some(room: pathlib.Path, crate: str, edits: List[Edit], seconds: float, jobs: int) -> Dict[str, Said]:
    """Tries edits of a crate in one run of the kit, which gives nothing where it is cut off."""
    folder = room / "crates" / crate / "must-fail"
    shutil.rmtree(folder, ignore_errors=True)
    folder.mkdir()
    for it in edits:
        shutil.copy(it.path, folder / it.path.name)
    status, printed = ran(["rt", "must-fail", crate], room, seconds, jobs)
    return read(printed, crate) if status >= 0 else {}


def try_all(room: pathlib.Path, crate: str, edits: List[Edit], limit: float, jobs: int) -> Dict[str, Said]:
    """What each edit of a crate comes to. All begin with one proof of the crate; where they don't end in their time, each is tried once alone."""
    prove(room, crate, jobs)
    found = try_some(room, crate, edits, limit * (len(edits) + 2), jobs)
    if not found and len(edits) > 1:
        for it in edits:
            found.update(try_some(room, crate, [it], limit * 3, jobs))
    return {it.name: found.get(it.name, Said(UNTRIED, "out of time, or nothing was said of it")) for it in edits}


def scratch() -> "tempfile.TemporaryDirectory[str]":
    return tempfile.TemporaryDirectory(prefix="ucon-edits-")
