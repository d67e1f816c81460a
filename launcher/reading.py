"""The words that read a journal and never write it: `log`, `policy`, `copy`. They take no lock, and need no program."""
import gc
import importlib
import os
import signal
import sys
from typing import List, Optional

from launcher.journal import Refused

# Each word by its module, which is loaded where it is meant; `asked_of` there says what the words ask, and `run` does it.
WORDS = {"log": "log", "policy": "in_force", "copy": "backup"}


def is_path(word: str) -> bool:
    """A file whose name begins with two hyphens is named as `./--file`."""
    return word != "" and not word.startswith("--")


def run(words: List[str]) -> Optional[int]:
    """Runs such words, and says why where that can't be. None where they are none."""
    if not words or words[0] not in WORDS:
        return None
    module = importlib.import_module(f"launcher.{WORDS[words[0]]}")
    asked = module.asked_of(words)
    # Nothing here makes cycles, and to look for them among 160,000 steps takes as long as to print these.
    gc.disable()
    try:
        return module.run(asked) if asked else None
    except Refused as why:
        sys.stderr.write(why.text())
        return why.status
    except KeyboardInterrupt:
        # It ends as a program without a handler does, and what it began to write is gone.
        signal.signal(signal.SIGINT, signal.SIG_DFL)
        os.kill(os.getpid(), signal.SIGINT)
        return 128 + signal.SIGINT
