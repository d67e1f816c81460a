"""What two copies compare: the sum of each command with its reply, and the digest of all sums up to a number.

Every number of the log is exactly one step of the journal. So the place in the journal is how far a machine got, and nothing else has to
remember it. A command that makes no step (a question, or one that is refused) is followed by a mark, which makes one. The mark holds the
command's sum, so the journal alone gives each digest."""
from __future__ import annotations

import hashlib
import re

# Number 1 of each log. It makes the object that holds the marks.
FOUNDING = b"0 object log"
MARK = re.compile(rb'0 set o log answer "([0-9a-f]{64})"')
# The attribute that the policy has to declare, amended or not.
DECLARATION = re.compile(rb'attr\s+o\s+answer\s*:\s*text\s*=')


def hashed(raw: bytes) -> bytes:
    return hashlib.sha256(raw).hexdigest().encode()


def mark_for(line: bytes, reply: bytes) -> bytes:
    """The command that follows one without a step."""
    return b'0 set o log answer "%b"' % hashed(line + b" -> " + reply)


def sum_of(line: bytes, reply: bytes) -> bytes:
    """The sum of a step of the journal: a mark stands for the command before it."""
    mark = MARK.fullmatch(line)
    return mark[1] if mark and reply.split()[0] == b"ok" else hashed(line + b" -> " + reply)


def first_digest(policy: bytes) -> bytes:
    return hashed(policy)


def next_digest(digest: bytes, line: bytes, reply: bytes) -> bytes:
    return hashed(digest + sum_of(line, reply))
