"""Runs the front end: `ucon front --journal J --policy P --users USERS`, `ucon front add-user --users USERS NAME`."""
import asyncio
import logging
import os
import sys

# The repository's top stands where the folder of this file was, so that modules are found by their whole names.
sys.path[0] = os.path.dirname(os.path.dirname(os.path.realpath(__file__)))

from front import converse  # noqa: E402
from front.book import Book  # noqa: E402
from front.config import Config, config_of  # noqa: E402
from front.monitor import Failed, policy_of  # noqa: E402
from front.server import Front  # noqa: E402
from front.users import BadUsers, Users, add_user, read_users  # noqa: E402
from launcher import lock  # noqa: E402
from launcher.journal import Refused  # noqa: E402


def hear_logs(config: Config) -> None:
    """What happens goes to standard error, and the access log where it was asked to go."""
    plain = logging.StreamHandler()
    plain.setFormatter(logging.Formatter("ucon front: %(message)s"))
    logging.basicConfig(handlers=[plain], level=logging.WARNING)
    access = logging.getLogger("front.access")
    where: logging.Handler = logging.StreamHandler()
    if config.access_log:
        where = logging.FileHandler(config.access_log)
    where.setFormatter(logging.Formatter("%(asctime)s %(message)s"))
    access.handlers, access.propagate = [where], False
    access.setLevel(logging.INFO)


def served(config: Config, users: Users) -> int:
    policy = policy_of(config.policy) if config.policy else None
    held = lock.take(str(config.journal))
    if held is None:
        raise Failed(6, f"{config.journal} can't be opened: look at the path")
    try:
        asyncio.run(run(config, users, converse.words(config.journal, policy is None), policy, held))
    finally:
        held.release()
    return 0


async def run(config: Config, users: Users, words: list[str], policy: bytes | None, held: lock.Lock) -> None:
    await Front(config, Book(config, users, words, policy, held)).run()


def main(words: list[str]) -> int:
    try:
        if words[:1] == ["add-user"]:
            return add_user(words[1:])
        config = config_of(words)
        users = read_users(config.users)
        hear_logs(config)
        return served(config, users)
    except BadUsers as why:
        sys.stderr.write(f"ucon front: {why}\n")
        return 1
    except Refused as why:
        sys.stderr.write(why.text())
        return why.status
    except Failed as why:
        sys.stderr.write(f"ucon front: {why}\n")
        return why.status
    except OSError as why:
        sys.stderr.write(f"ucon front: {why.filename or ''}: {why.strerror}\n")
        return 1


if __name__ == "__main__":
    sys.exit(main(sys.argv[1:]))
