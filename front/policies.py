"""Policies tried before they are in force, by the launcher's own words: `check`, and `amend --dry-run`, which tries it on a copy."""
import asyncio
import contextlib
import os
import re
import signal
import sys
import tempfile
from collections.abc import Awaitable, Callable

from front.answers import Answer
from front.asking import Refused
from launcher import program
from launcher.source import policy_end

Trial = Callable[[bytes], Awaitable[Answer]]

# How long one may take, in seconds. The first one may have to compile the program as it is written.
LONGEST = 180.0
# The status with which a policy is refused.
POLICY_REFUSED = 2
# How long it has to end once it is asked to, in seconds.
ENDING = 5.0
# The name that a policy has here, and where the launcher says that its fault is: the first such line, which may go on behind the place.
NAMED = "policy"
PLACE = re.compile(rf"^{NAMED}:(\d+):(\d+)(?=:|$)", re.MULTILINE)
NOTES = "ucon: as written, not proved", "ucon: compiling the program"
LINES = ("revokes", "loses its values", "comes in", "can't change")


def bytes_of(policy: str) -> bytes:
    return policy.encode("utf-8", "replace")


async def ran(words: list[str], folder: str) -> tuple[int, str, str]:
    """Runs the launcher in a folder, where the policy is a file. Its status, and what it says."""
    with open(os.path.join(folder, NAMED), "rb") as source:
        process = await asyncio.create_subprocess_exec(
            sys.executable, str(program.TOP / "ucon"), *words, cwd=folder, stdin=source,
            stdout=asyncio.subprocess.PIPE, stderr=asyncio.subprocess.PIPE, start_new_session=True,
        )
        try:
            out, err = await asyncio.wait_for(process.communicate(), LONGEST)
        finally:
            await ended(process)
    said = "".join(it for it in err.decode(errors="replace").splitlines(keepends=True) if not it.startswith(NOTES))
    return process.returncode or 0, out.decode(errors="replace"), said


async def ended(process: asyncio.subprocess.Process) -> None:
    """Ends the launcher with all that it started, where it runs still."""
    for number in (signal.SIGTERM, signal.SIGKILL):
        if process.returncode is not None:
            return
        with contextlib.suppress(ProcessLookupError):
            os.killpg(process.pid, number)
        with contextlib.suppress(asyncio.TimeoutError):
            await asyncio.wait_for(process.wait(), ENDING)


async def tried(words: list[str], policy: bytes) -> tuple[int, str, str]:
    with tempfile.TemporaryDirectory(prefix="ucon-front-") as folder:
        with open(os.path.join(folder, NAMED), "wb") as file:
            file.write(policy)
        return await ran(words, folder)


def fault_of(said: str) -> dict[str, object]:
    """What is wrong, as the launcher says it, and the place where it says one."""
    place = PLACE.search(said)
    at = {"line": int(place[1]), "column": int(place[2])} if place else {}
    return {"text": said.rstrip("\n"), **at}


def divider_in(policy: bytes) -> dict[str, object] | None:
    """The fault of a policy with a line `%%`: below it the words would read what is no policy, and an amendment has it nowhere."""
    at = policy_end(policy)
    if at == len(policy):
        return None
    line = policy.count(b"\n", 0, at) + 1
    text = f"{NAMED}:{line}:1: the line `%%` is no part of a policy: it divides a document; leave it out, with all below it"
    return {"text": text, "line": line, "column": 1}


async def check(policy: bytes) -> Answer:
    if fault := divider_in(policy):
        return Answer(200, {"accepted": False, "fault": fault})
    status, out, said = await tried(["check"], policy)
    if status not in (0, POLICY_REFUSED):
        # There is no program, or it was ended: that tells nothing of the policy.
        raise Refused(503, f"the policy can't be tried now: {said.strip() or f'status {status}'}")
    if status:
        return Answer(200, {"accepted": False, "fault": fault_of(said)})
    return Answer(200, {"accepted": True, "models": out.splitlines()})


async def dry_run(policy: bytes, journal: str) -> Answer:
    """What the amendment does, a line each, by the launcher's words. `done` is false where it would be refused, with why."""
    if fault := divider_in(policy):
        return Answer(200, {"would_do": [], "refused": fault})
    status, out, said = await tried(["amend", os.path.abspath(journal), NAMED, "--dry-run"], policy)
    lines = [it for it in out.splitlines() if it.startswith(LINES)]
    return Answer(200, {"would_do": lines, "refused": fault_of(said) if status else None})
