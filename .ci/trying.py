"""What the tries of the launcher share: running it, and noting what isn't as it should be."""
import os
import pathlib
import subprocess
from typing import IO, List, Optional, Union

TOP = pathlib.Path(__file__).resolve().parent.parent
UCON = TOP / "ucon"
# The program that whoever runs this has chosen. Each try names its own, or none.
CHOSEN: Optional[str] = os.environ.pop("UCON_PROGRAM", None)

# Answers as NAME.out, NAME.err and NAME.status of the case say; to `check`, where that is asked of a policy inside it, as NAME.check says.
STAND_IN = """#!/bin/sh
cat >/dev/null
[ "$1" != check ] || [ ! -e "$CASE.check" ] || { cat "$CASE.check" >&2; exit 2; }
[ ! -e "$CASE.out" ] || cat "$CASE.out"
[ ! -e "$CASE.err" ] || cat "$CASE.err" >&2
[ ! -e "$CASE.status" ] || exit "$(cat "$CASE.status")"
"""

failures: List[str] = []


def check(name: str, holds: bool, *seen: object) -> None:
    if not holds:
        failures.append(name)
        print(f"launcher: {name}")
        for it in seen:
            print(f"  {it!r}")


def ran(
    words: List[str],
    cwd: pathlib.Path = TOP,
    ucon: pathlib.Path = UCON,
    standard_input: Union[int, IO[bytes], None] = subprocess.DEVNULL,
    **env: str,
) -> "subprocess.CompletedProcess[bytes]":
    return subprocess.run(
        [str(ucon), *words], cwd=cwd, stdin=standard_input, stdout=subprocess.PIPE, stderr=subprocess.PIPE, check=False,
        env={**os.environ, **env}, timeout=60,
    )


def script(path: pathlib.Path, text: str) -> pathlib.Path:
    path.write_text(text)
    path.chmod(0o755)
    return path
