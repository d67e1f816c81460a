"""What words over a journal write on standard output, and what they say of what stands behind its records."""
import os
import sys

from launcher.journal import Journal, Refused

SINK_FAULT = 5


def write(lines: bytes) -> None:
    try:
        sys.stdout.buffer.write(lines)
        sys.stdout.flush()
    except OSError as why:
        # What is held back can't go out at the end either.
        os.dup2(os.open(os.devnull, os.O_WRONLY), 1)
        raise Refused(SINK_FAULT, f"standard output failed: {why.strerror}", "look at where the output goes") from None


def say_cut_off(journal: Journal, at: int) -> None:
    """Says what stands behind the last record, where an opening would cut it off."""
    end = journal.end(at)
    if end.is_torn and not (end.gate == 1 and end.has_whole):
        why = end.strange or "a write that is under way, or was never finished; an opening cuts them off"
        sys.stderr.write(f"ucon: {journal.name}: read up to byte {end.at}; {end.behind} bytes stand behind the last whole record: {why}\n")
