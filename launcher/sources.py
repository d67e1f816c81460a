"""What the program is built from: its crates, their files, and the sums by which a build is known again."""
import hashlib
import pathlib
from typing import Dict, Iterable, List

from launcher import program

def needs(top: pathlib.Path) -> Dict[str, List[str]]:
    """By crate of a repository, what its line of crates.txt names."""
    found: Dict[str, List[str]] = {}
    for line in (top / "crates.txt").read_text().splitlines():
        head, colon, rest = line.partition("#")[0].partition(":")
        if colon:
            found[head.split()[0]] = rest.split()
    return found


def crates_below(name: str) -> List[str]:
    """The crates of the repository that this one stands on, lowest first, and then this one."""
    deps = needs(program.TOP)
    order: List[str] = []

    def visit(crate: str) -> None:
        for dep in deps[crate]:
            if dep in deps and dep not in order:
                visit(dep)
        order.append(crate)

    visit(name)
    return order


def files_of(which: program.Program, *parts: str) -> List[pathlib.Path]:
    """The files of these folders of each crate below a program, and the list of the crates."""
    folders = [program.TOP / "crates" / name / part for name in crates_below(which.crate) for part in parts]
    return [program.TOP / "crates.txt", *(file for folder in folders for file in sorted(folder.rglob("*")) if file.is_file())]


def as_written(which: program.Program = program.RUNS) -> List[pathlib.Path]:
    """What decides what a program does: its code, with the contracts in it."""
    return files_of(which, "src")


def as_proved(which: program.Program = program.RUNS) -> List[pathlib.Path]:
    """What its proof reads: its code, definitions and proofs."""
    return files_of(which, "src", "specs", "proofs")


def sum_of(files: Iterable[pathlib.Path], *more: str) -> str:
    """The sum of these files with their places in the repository, and of some words."""
    whole = hashlib.sha256()
    for file in files:
        text = file.read_bytes()
        whole.update(f"{file.relative_to(program.TOP)} {len(text)}\n".encode())
        whole.update(text)
    whole.update("\n".join(more).encode())
    return whole.hexdigest()
