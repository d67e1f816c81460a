"""`ucon front`: the front end, which is in front/, run by a Python that has what it needs."""
import os
import subprocess
import sys
from typing import List, Optional

from launcher import program

# The front end can't be run.
NO_PYTHON = 125
# Debian's own Python has Debian's packages, whichever Python runs this.
CANDIDATES = (sys.executable, "/usr/bin/python3")
HAS_ALL = "import sys, aiohttp; sys.exit(sys.version_info < (3, 11))"
# How long a Python may take to say whether it has all, in seconds.
LONGEST = 60


def interpreter() -> Optional[str]:
    """A Python of 3.11 or later with aiohttp. None where there is none."""
    return next((it for it in dict.fromkeys(CANDIDATES) if has_all(it)), None)


def has_all(python: str) -> bool:
    quiet = subprocess.DEVNULL
    try:
        return subprocess.run([python, "-c", HAS_ALL], stdin=quiet, stdout=quiet, stderr=quiet, timeout=LONGEST, check=False).returncode == 0
    except (OSError, subprocess.TimeoutExpired):
        return False


def run(words: List[str]) -> int:
    """Goes on as the front end. Says what is missing where it can't."""
    front = program.TOP / "front"
    python = interpreter()
    if python is None or not front.is_dir():
        what = "a Python of 3.11 or later with aiohttp" if python is None else f"{front}, which isn't there"
        hint = "front/install installs Debian's python3-aiohttp, and /usr/bin/python3 is then used" if python is None else "run it in the repository"
        sys.stderr.write(f"ucon: the front end needs {what}\nhint: {hint}\n")
        return NO_PYTHON
    # Its bytecode is kept with what else is made here; an installed copy keeps none.
    how = ["-X", f"pycache_prefix={sys.pycache_prefix}"] if program.has_sources() else ["-B"]
    sys.stdout.flush()
    sys.stderr.flush()
    os.execv(python, [python, *how, str(front), *words])
