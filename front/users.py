"""Who is let in: a file of users, with the SHA-256 of each one's token and the uid that the Unix socket knows it by.

    [users.ann]
    subject = "ann"
    role = "user"
    token_sha256 = "5f1c.."
    uid = 1000

A token is `NAME.SECRET`, the secret 256 random bits. The name only finds the user; the secret's digest is compared in constant time, with
that of nobody where there is no such user."""
import argparse
import hashlib
import hmac
import os
import pathlib
import re
import secrets
import sys
import tomllib
from dataclasses import dataclass

from front.protocol import LAST_CLIENT, NAME

ROLES = ("user", "admin", "metrics")
DIGEST = re.compile("[0-9a-f]{64}")
SECRET_BYTES = 32
# No token is longer: a name, a full stop, and 32 bytes in base64.
LONGEST_TOKEN = 32 + 1 + 44
# What the secret of an unknown user is compared with: the digest of nobody's secret.
NOBODY = hashlib.sha256(secrets.token_bytes(SECRET_BYTES)).hexdigest()


class BadUsers(Exception):
    """The file of users says something that can't be."""


@dataclass(frozen=True, slots=True)
class User:
    """Somebody who is let in. `client` is the number by which its tries are made; users beyond the 63rd share numbers."""

    name: str
    subject: str
    role: str
    client: int
    token_sha256: str | None
    uid: int | None

    @property
    def is_admin(self) -> bool:
        return self.role == "admin"


class Users:
    """All users, by name and by uid."""

    def __init__(self, users: list[User]) -> None:
        self.by_name = {it.name: it for it in users}
        self.by_uid = {it.uid: it for it in users if it.uid is not None}

    def __len__(self) -> int:
        return len(self.by_name)

    def subjects(self) -> list[str]:
        """The subjects for whom somebody may try. Each once."""
        return list(dict.fromkeys(it.subject for it in self.by_name.values() if it.role == "user"))

    def of_token(self, token: str) -> User | None:
        name, _, secret = token[:LONGEST_TOKEN].partition(".")
        user = self.by_name.get(name)
        kept = user.token_sha256 if user and user.token_sha256 else NOBODY
        is_right = hmac.compare_digest(digest_of(secret), kept)
        return user if is_right and user and user.token_sha256 else None

    def of_uid(self, uid: int) -> User | None:
        return self.by_uid.get(uid)


def digest_of(secret: str) -> str:
    return hashlib.sha256(secret.encode("utf-8", "surrogateescape")).hexdigest()


# ---- the file


def read_users(path: pathlib.Path) -> Users:
    """The users of a file, in its order, from which their numbers come."""
    return Users(users_in(path))


def users_in(path: pathlib.Path) -> list[User]:
    try:
        said = tomllib.loads(path.read_text(encoding="utf-8"))
    except OSError as why:
        raise BadUsers(f"{path} can't be read: {why.strerror}; `ucon front add-user --users {path} NAME` makes it") from None
    except (tomllib.TOMLDecodeError, UnicodeDecodeError) as why:
        raise BadUsers(f"{path} is no TOML: {why}") from None
    tables = said.get("users", {})
    if set(said) - {"users"} or not isinstance(tables, dict):
        raise BadUsers(f"{path} has more than tables [users.NAME]")
    users = [user_of(path, name, table, number) for number, (name, table) in enumerate(tables.items())]
    hold_apart(path, [str(it.uid) for it in users if it.uid is not None], "uid")
    hold_apart(path, [it.token_sha256 for it in users if it.token_sha256], "token")
    return users


def user_of(path: pathlib.Path, name: str, table: object, number: int) -> User:
    """One table. Its number is 1 to 63, and goes round from there."""
    if not NAME.fullmatch(name) or not isinstance(table, dict):
        raise BadUsers(f"{path}: `{name}` is no user: a table whose name has 1 to 32 of a-z, 0-9 and _, the first a letter")
    strange = set(table) - {"subject", "role", "token_sha256", "uid"}
    if strange:
        raise BadUsers(f"{path}: user {name} has `{sorted(strange)[0]}`, and may have subject, role, token_sha256 and uid")
    subject, role, digest, uid = table.get("subject", name), table.get("role", "user"), table.get("token_sha256"), table.get("uid")
    if not isinstance(subject, str) or not NAME.fullmatch(subject):
        raise BadUsers(f"{path}: the subject of user {name} is no name")
    if role not in ROLES:
        raise BadUsers(f"{path}: the role of user {name} is none of {', '.join(ROLES)}")
    if digest is not None and not (isinstance(digest, str) and DIGEST.fullmatch(digest)):
        raise BadUsers(f"{path}: token_sha256 of user {name} isn't 64 digits of 0-9 and a-f")
    if uid is not None and (isinstance(uid, bool) or not isinstance(uid, int) or uid < 0):
        raise BadUsers(f"{path}: the uid of user {name} is no number")
    return User(name, subject, role, number % LAST_CLIENT + 1, digest, uid)


def hold_apart(path: pathlib.Path, values: list[str], what: str) -> None:
    if len(values) != len(set(values)):
        raise BadUsers(f"{path}: two users have one {what}")


def table_of(user: User) -> str:
    rows = [f"[users.{user.name}]", f'subject = "{user.subject}"', f'role = "{user.role}"']
    rows += [f'token_sha256 = "{user.token_sha256}"'] if user.token_sha256 else []
    rows += [f"uid = {user.uid}"] if user.uid is not None else []
    return "\n".join(rows) + "\n"


def write_users(path: pathlib.Path, text: str) -> None:
    """Writes the file whole, beside its place and then renamed. Only its owner may read it."""
    fresh = path.with_name(f".{path.name}.{os.getpid()}.new")
    file = os.open(fresh, os.O_WRONLY | os.O_CREAT | os.O_EXCL | os.O_CLOEXEC, 0o600)
    try:
        with open(file, "w", encoding="utf-8") as out:
            out.write(text)
            out.flush()
            os.fsync(out.fileno())
        os.replace(fresh, path)
    except OSError:
        fresh.unlink(missing_ok=True)
        raise


# ---- `ucon front add-user`


def parser() -> argparse.ArgumentParser:
    words = argparse.ArgumentParser("ucon front add-user", description="Adds a user to a file, and prints its token once.", allow_abbrev=False)
    words.add_argument("name", help="the user's name: 1 to 32 of a-z, 0-9 and _, the first a letter")
    words.add_argument("--users", required=True, type=pathlib.Path)
    words.add_argument("--subject", help="the subject for whom it tries; its name where this isn't given")
    words.add_argument("--role", choices=ROLES, default="user")
    words.add_argument("--uid", type=int, help="the uid by which the Unix socket knows it")
    words.add_argument("--no-token", action="store_true", help="let it in by its uid alone")
    return words


def add_user(words: list[str]) -> int:
    said = parser().parse_args(words)
    if said.no_token and said.uid is None:
        raise BadUsers("a user without a token needs a --uid")
    path: pathlib.Path = said.users
    before = users_in(path) if path.exists() else []
    if any(it.name == said.name for it in before):
        raise BadUsers(f"{path} has a user {said.name} already; take its table out to make another token")
    secret = None if said.no_token else secrets.token_urlsafe(SECRET_BYTES)
    table = {"subject": said.subject or said.name, "role": said.role}
    table |= {"token_sha256": digest_of(secret)} if secret else {}
    table |= {"uid": said.uid} if said.uid is not None else {}
    user = user_of(path, said.name, table, len(before))
    hold_apart(path, [str(it.uid) for it in [*before, user] if it.uid is not None], "uid")
    text = path.read_text(encoding="utf-8") if before else ""
    write_users(path, text + ("\n" if text else "") + table_of(user))
    if secret:
        print(f"{user.name}.{secret}")
        print("ucon: this token isn't kept: hand it to its user now; SIGHUP makes a running front end read the file again", file=sys.stderr)
    return 0
