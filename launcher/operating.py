"""The words over a journal that need the program: `amend` and `carry`, which write one, and `state` and `verify`, which only read."""
import gc
import importlib
import pathlib
import sys
from functools import partial
from typing import Callable, List, Optional

from launcher.journal import Refused

Call = Callable[[pathlib.Path], int]
# Each word by its module, which is loaded where it is meant; `asked_of` there says what the words ask, and `run` does it.
WORDS = {"amend": "amending", "carry": "carry", "state": "state", "verify": "verify"}


def called(words: List[str]) -> Optional[Call]:
    """What such words call, given the program. None where they are none."""
    if not words or words[0] not in WORDS:
        return None
    module = importlib.import_module(f"launcher.{WORDS[words[0]]}")
    asked = module.asked_of(words)
    return partial(module.run, asked=asked) if asked else None


def run(words: List[str]) -> Optional[int]:
    """Runs such words, and says why where that can't be. None where they are none."""
    call = called(words)
    if call is None:
        return None
    from launcher import which

    # To look for cycles again and again among 60,000 uses takes as long as to read them, and what there is of these ends with the word.
    gc.disable()
    found = which.find()
    which.say(found)
    try:
        return call(found.path)
    except Refused as why:
        sys.stderr.write(why.text())
        return why.status
