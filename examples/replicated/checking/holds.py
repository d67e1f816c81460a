"""What has to hold behind each fault, read from etcd's log and from each machine's journal."""
from __future__ import annotations

import hashlib
from collections.abc import Iterable, Mapping, Sequence

from checking.load import Answered
from replicated import sums
from replicated.journal import Step
from replicated.log import Entry


def wrongs(log: Sequence[Entry], journals: Mapping[str, Sequence[Step]], answered: Iterable[Answered]) -> list[str]:
    """What doesn't hold, in words. Nothing, if all does."""
    found = twice(log)
    for name, steps in journals.items():
        if len(steps) != len(log):
            found.append(f"{name} has {len(steps)} steps, and the log {len(log)} commands")
        found += [f"{name}, place {entry.number}: {it}" for entry, step in zip(log, steps) if (it := differs(entry, step))]
        found += [f"{name}: {it}" for told in answered if (it := isnt_there(told, log, steps))]
    return found


def twice(log: Sequence[Entry]) -> list[str]:
    """Commands that stand at two numbers."""
    at: dict[bytes, int] = {}
    found = []
    for entry in log:
        if entry.name in at:
            found.append(f"{entry.name.decode()} has the numbers {at[entry.name]} and {entry.number}")
        at[entry.name] = entry.number
    return found


def differs(entry: Entry, step: Step) -> str:
    """Whether a step is neither the command's nor a mark for it."""
    is_its = step.line == entry.line or sums.MARK.fullmatch(step.line)
    return "" if is_its else f"the log has {entry.line.decode()}, the journal {step.line.decode()}"


def isnt_there(told: Answered, log: Sequence[Entry], steps: Sequence[Step]) -> str:
    """Whether an answered command isn't at its number, in the log and in a journal, or has another reply there."""
    if told.number > min(len(log), len(steps)) or log[told.number - 1].line != told.line:
        return f"{told.line.decode()} was answered at {told.number}, and isn't there"
    step = steps[told.number - 1]
    marked = sums.MARK.fullmatch(sums.mark_for(told.line, told.reply))
    is_told = step == (told.line, told.reply) or (marked and step.line == marked[0])
    return "" if is_told else f"{told.line.decode()} was answered {told.reply.decode()}, and place {told.number} has {step}"


def numbers_told_twice(answered: Iterable[Answered]) -> list[str]:
    seen: set[int] = set()
    found = []
    for told in answered:
        if told.number in seen:
            found.append(f"number {told.number} was told twice")
        seen.add(told.number)
    return found


def digest(printed: bytes) -> str:
    """Of what `ucon log` prints: entries and replies, and no checkpoints."""
    return hashlib.sha256(printed).hexdigest()[:16]
