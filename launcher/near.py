"""Words that are nearly others."""
from typing import Iterable, Optional


def near(word: str, known: Iterable[str]) -> Optional[str]:
    """The word of these that this one was probably meant to be. None where there is none, or where it is this one."""
    import difflib

    found = difflib.get_close_matches(word.lower(), list(known), 1, 0.7)
    return found[0] if found and found[0] != word else None
