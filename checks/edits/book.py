"""Edits, what each of them came to, and the sum by which a result is known to be of today's sources."""
import functools
import hashlib
import os
import pathlib
import re
import subprocess
from typing import Dict, List, NamedTuple, Optional

TOP = pathlib.Path(__file__).resolve().parent.parent.parent
PARTS = ("src", "specs", "proofs")
RESULTS = "results.tsv"

# What a try comes to. WRITTEN: the check refuses the proof that is written for the real body, which doesn't rule out another one. LOST: that
# proof names what the edit took away, which says less still. LIMIT: the check gave up at one of its limits. GATE: a run of the gate refused it
# before the edit came here, and by which goal wasn't kept. HAND: it was refused as it was planted by hand, before it was an edit.
REFUSED, WRITTEN, LOST, LIMIT, GATE, HAND = "refused", "written", "lost", "limit", "gate", "hand"
PROVED, BROKEN, UNTRIED = "proved", "broken", "untried"


class Edit(NamedTuple):
    crate: str
    path: pathlib.Path

    @property
    def name(self) -> str:
        return self.path.stem

    @property
    def harmless(self) -> Optional[str]:
        """Why it may be proved, where its file says so."""
        found = re.search(r"^harmless: *(.+)$", self.path.read_text(), re.M)
        return found[1] if found else None


class Result(NamedTuple):
    kind: str
    commit: str
    sum: str
    goal: str


def crates(top: pathlib.Path = TOP) -> List[str]:
    """The repository's crates, in the order of crates.txt."""
    heads = [line.partition("#")[0].partition(":") for line in (top / "crates.txt").read_text().splitlines()]
    return [head.split()[0] for head, found, _ in heads if found]


def edits_of(crate: str, top: pathlib.Path = TOP, is_gates: bool = False) -> List[Edit]:
    """The edits of a crate: those that are kept here, or the gate's."""
    folder = top / "crates" / crate / "must-fail" if is_gates else top / "checks" / "edits" / crate
    return [Edit(crate, path) for path in sorted(folder.glob("*.edit"))]


def misfit(edit: Edit, top: pathlib.Path = TOP) -> str:
    """Why the edit can't be laid over its crate as it stands, or nothing where it can: each old text stands in its file exactly once, after the
    pairs before it."""
    texts: Dict[str, str] = {}
    name = old = ""
    for line in edit.path.read_text().splitlines():
        word, _, rest = line.partition(": ")
        if word == "file":
            name = rest.strip()
            file = top / "crates" / edit.crate / name
            if not file.is_file():
                return f"there is no {name}"
            texts.setdefault(name, file.read_text())
        elif word == "old":
            old = rest
            if not name or texts[name].count(old) != 1:
                return f"not once in {name}: {old.strip()}"
        elif line.startswith("new:"):
            texts[name] = texts[name].replace(old, line[len("new:") :].removeprefix(" "))
    return "" if texts and old else "it names no text"


def sum_of(edit: Edit, top: pathlib.Path = TOP) -> str:
    """A sum of the edit and of its crate's own sources, definitions and proofs."""
    return hashlib.sha256(sum_of_crate(edit.crate, top) + edit.path.read_bytes()).hexdigest()[:16]


@functools.lru_cache(None)
def sum_of_crate(crate: str, top: pathlib.Path) -> bytes:
    made, folder = hashlib.sha256(), top / "crates" / crate
    for file in sorted(it for part in PARTS for it in (folder / part).rglob("*") if it.is_file()):
        made.update(f"\0{file.relative_to(folder)}\0".encode() + file.read_bytes())
    return made.digest()


def commit(top: pathlib.Path = TOP) -> str:
    """The commit that is checked out, with a + where the crates differ from it."""

    def said(*words: str) -> str:
        return subprocess.run(["git", *words], cwd=top, stdout=subprocess.PIPE, text=True, check=True, timeout=60).stdout.strip()

    is_changed = said("status", "--porcelain", "--", "crates.txt", *(f"crates/*/{part}" for part in PARTS))
    return said("rev-parse", "--short=8", "HEAD") + ("+" if is_changed else "")


def results_of(crate: str, top: pathlib.Path = TOP) -> Dict[str, Result]:
    """What the crate's edits came to last, by their names."""
    file = top / "checks" / "edits" / crate / RESULTS
    rows = [line.split("\t") for line in file.read_text().splitlines()[1:]] if file.exists() else []
    return {row[0]: Result(*[*row[1:], "", "", ""][:4]) for row in rows}


def keep(crate: str, results: Dict[str, Result], top: pathlib.Path = TOP) -> None:
    """Writes down what edits of a crate came to, over what is kept of the others; what is kept of an edit that is gone goes."""
    names = {it.name for it in edits_of(crate, top)}
    kept = {name: it for name, it in {**results_of(crate, top), **results}.items() if name in names}
    lines = ["\t".join(("edit", *Result._fields)), *("\t".join((name, *kept[name])).rstrip() for name in sorted(kept))]
    write(top / "checks" / "edits" / crate / RESULTS, "\n".join(lines) + "\n")


def write(file: pathlib.Path, text: str) -> None:
    beside = file.with_name(f"{file.name}.{os.getpid()}")
    beside.write_text(text)
    os.replace(beside, file)
