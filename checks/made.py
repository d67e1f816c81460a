"""Pages that a script makes: written, or held against what the script would write."""
import argparse
import importlib.machinery
import importlib.util
import pathlib
import re
import sys
from types import ModuleType
from typing import Iterator, List

TOP = pathlib.Path(__file__).resolve().parent.parent
TESTS = re.compile(r"_tests$")
FIRST = re.compile(r"(.+?[.!?])(?= [A-Z`*(]|$)", re.S)


def crates(top: pathlib.Path) -> Iterator[str]:
    """The crates in the order of crates.txt, lowest first, without those of tests."""
    for line in (top / "crates.txt").read_text(encoding="utf-8").splitlines():
        name = re.split(r"[ :]", line, maxsplit=1)[0]
        if name and not name.startswith("#") and not TESTS.search(name):
            yield name


def first_sentence(text: str) -> str:
    """The first sentence of a comment, on one line."""
    found = FIRST.match(text)
    return found[1] if found else text


def in_table(text: str) -> str:
    return text.replace("|", "\\|")


def script(name: str) -> ModuleType:
    """Another script of this folder, as a module."""
    loader = importlib.machinery.SourceFileLoader(name, str(TOP / "checks" / name))
    spec = importlib.util.spec_from_loader(name, loader)
    assert spec is not None
    module = importlib.util.module_from_spec(spec)
    sys.modules[name] = module
    loader.exec_module(module)
    return module


def settle(script: str, about: str, page: pathlib.Path, text: str, words: List[str]) -> int:
    """Writes the page, or with `--check` says whether it is what would be written."""
    parser = argparse.ArgumentParser(script, description=about, formatter_class=argparse.RawDescriptionHelpFormatter)
    parser.add_argument("--check", action="store_true", help="write nothing, and end with 1 if the page is stale")
    is_check = parser.parse_args(words).check
    is_same = page.is_file() and page.read_text(encoding="utf-8") == text
    if is_check and not is_same:
        print(f"{script}: {page.relative_to(TOP)} is stale; run {script}", file=sys.stderr)
        return 1
    if not is_check and not is_same:
        page.write_text(text, encoding="utf-8")
    return 0
