"""Runs a form of the program, with what stands around it, and the launcher's words that aren't over a journal."""
import pathlib
import sys
from typing import Callable, List, Optional

from launcher import bringing, forms, keeping, program, which
from launcher.journal import Refused, open_journal
from launcher.program import Ended, Input
from launcher.room import is_unwritable, writable
from launcher.which import Found

# The forms that check a journal, and change nothing.
CHECKS = ("audit", "report")


def refuse(words: List[str]) -> int:
    """Says what the program says of words that are no form, and which ones there are."""
    sys.stderr.write("ucon: usage\n" + forms.usage_hint(words))
    return program.USAGE


def explain(found: Found, words: List[str], source: Optional[Input], ended: Ended) -> int:
    """Passes on what the program said, and puts behind it what a person needs."""
    if source and source.front:
        ended = bringing.judged(words[1], ended)
    sys.stderr.buffer.write(ended.errors)
    if source:
        from launcher import hints

        sys.stderr.write(hints.behind(found.path, words, ended, source.name, source.read(), source.front))
    elif words[0] == "converse" and ended.status in (6, 8):
        from launcher import hints

        sys.stderr.write(hints.behind_conversation(words, ended.status))
    which.say_check_failed(found, ended.status)
    sys.stderr.flush()
    return ended.status


def run_form(found: Found, words: List[str], accepts_loss: bool) -> int:
    """Runs a form of the program, over the document that comes on standard input, or that words bring."""
    bringing.look(words)
    brought = bringing.of(words)
    if brought:
        words, source = bringing.put(brought)
    else:
        # The input of a conversation is heard line by line, and isn't looked at again.
        source = None if words[0] == "converse" else program.readable_input()
    if keeping.writes(words):
        return explain(found, words, source, keeping.run(found.path, words, accepts_loss, source is not None))
    if words[0] in CHECKS and is_unwritable(words[1]):
        return explain(found, words, source, run_over_copy(found.path, words))
    if not source:
        program.become(found.path, words)
    return explain(found, words, source, program.run_kept(found.path, words))


def run_over_copy(path_of_program: pathlib.Path, words: List[str]) -> Ended:
    """Runs a form that changes nothing over a journal that this user may only read."""
    with program.ended_by_signals(), open_journal(words[1]) as journal, writable(journal) as path:
        return program.run_kept(path_of_program, [words[0], path, *words[2:]])


def linting(words: List[str]) -> Optional[Callable[[pathlib.Path], int]]:
    """What such words call, given the program. None where they aren't `lint FILE`."""
    if words[:1] != ["lint"]:
        return None
    from launcher import lint

    file = lint.file_of(words)
    return (lambda path: lint.run(path, file)) if file else None


def run_program(words: List[str]) -> int:
    """Does what the program is needed for: one of its own forms, or a word of the launcher's that runs it over documents."""
    words, accepts_loss = keeping.without_accepting(words)
    is_test = words[:1] == ["test"] and len(words) > 1
    linted = linting(words)
    if not is_test and linted is None and forms.form_of(words) is None:
        return refuse(words)
    found = which.find(program.CONVERSES if words[:1] == ["converse"] else program.RUNS)
    which.say(found)
    if linted:
        return linted(found.path)
    if is_test:
        from launcher import suite

        return suite.run(words[1:], found.path)
    try:
        return run_form(found, words, accepts_loss)
    except Refused as why:
        # What words bring can't be brought.
        sys.stderr.write(why.text())
        return why.status


def run(words: List[str]) -> int:
    """Runs words that aren't of a journal alone."""
    if words in (["--help"], ["-h"], ["help"]):
        sys.stdout.write(forms.help_text())
        return 0
    if words == ["--version"]:
        sys.stdout.write(which.version_text())
        return 0
    if words == ["prove"]:
        from launcher import build

        return 0 if build.prove() else program.FAILED
    if words[:1] == ["front"] and len(words) > 1:
        from launcher import fronting

        return fronting.run(words[1:])
    one = forms.help_of(words)
    if one is not None:
        sys.stdout.write(one)
        return 0
    return run_program(words)
