"""Stands in for another version of the monitor: `other_version.py WORDS..` starts the monitor, and hands it each line but one.

The first `try` of a user is made one of a subject that isn't there, so this version refuses what the others decide."""
from __future__ import annotations

import subprocess
import sys


def main(words: list[str]) -> int:
    monitor = subprocess.Popen(words, stdin=subprocess.PIPE, stdout=subprocess.PIPE, close_fds=False)
    assert monitor.stdin and monitor.stdout
    is_policy, has_differed = True, False
    for line in sys.stdin.buffer:
        if not is_policy and not has_differed and b" try u" in line:
            line, has_differed = line.replace(b" try u", b" try nobody"), True
        monitor.stdin.write(line)
        monitor.stdin.flush()
        is_policy = is_policy and line != b"%%\n"
        if not is_policy:
            sys.stdout.buffer.write(monitor.stdout.readline())
            sys.stdout.buffer.flush()
    monitor.stdin.close()
    return monitor.wait()


if __name__ == "__main__":
    sys.exit(main(sys.argv[1:]))
