"""What a journal tells to whoever only reads it: `ucon log`."""
from __future__ import annotations

import json
import pathlib
import subprocess
from typing import NamedTuple

UCON = pathlib.Path(__file__).resolve().parents[3] / "ucon"


class Step(NamedTuple):
    """A step of the journal: its command's line, `CLIENT COMMAND`, and its reply."""

    line: bytes
    reply: bytes


def printed(journal: pathlib.Path, *words: str) -> bytes:
    return subprocess.run([UCON, "log", journal, *words], stdout=subprocess.PIPE, check=True).stdout


def read(text: bytes) -> Step:
    step = json.loads(text)
    return Step(f"{step['client']} {step['command']}".encode("latin-1"), step["reply"].encode("latin-1"))


def steps(journal: pathlib.Path) -> list[Step]:
    """All steps, the one of place 1 first. None if there is no journal yet."""
    if not journal.exists() or journal.stat().st_size == 0:
        return []
    return [read(text) for text in printed(journal, "--json").splitlines()]


def step(journal: pathlib.Path, place: int) -> Step:
    return read(printed(journal, "--json", "--from", str(place)).splitlines()[0])
