"""Which program holds the conversation, and by which words: the one that the launcher runs for `converse`."""
import pathlib

from front.monitor import Failed
from launcher import kit, program, which

# There is no program to run.
NO_PROGRAM = 125


def words(journal: pathlib.Path, has_journal_policy: bool) -> list[str]:
    """The program over a journal. With `--journal-policy` it is given no policy. It is compiled as it is written where none is built."""
    try:
        found = which.find(program.CONVERSES)
    except kit.Failed as why:
        raise Failed(NO_PROGRAM, f"{why}; there is no program to run") from None
    which.say(found)
    asked = [str(found.path), str(journal)]
    return [*asked, "--journal-policy"] if has_journal_policy else asked
