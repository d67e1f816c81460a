"""What `ucon front` is asked for, as its words say."""
import argparse
import ipaddress
import pathlib
from collections.abc import Callable
from dataclasses import dataclass

DEFAULT_LISTEN = "127.0.0.1:8080"


@dataclass(frozen=True)
class Limits:
    """How much is taken from whoever asks. Times are in seconds."""

    # Bytes of a request's body, and of one that brings a policy.
    body: int = 4096
    policy_body: int = 200_000
    # Bytes of a request's head.
    head: int = 16_384
    # Connections at once, and of these the streams of events of one user.
    connections: int = 1000
    streams: int = 8
    # Requests a second of one user, and how many may come at once.
    rate: float = 50.0
    burst: int = 100
    # Refused credentials a minute from one address.
    refusals: int = 30
    # How long a request may take to come, to be answered, and how long a connection may be idle.
    receive: float = 10.0
    answer: float = 10.0
    idle: float = 75.0
    # Lines that wait for the monitor at once.
    waiting: int = 4096


@dataclass(frozen=True)
class Config:
    journal: pathlib.Path
    users: pathlib.Path
    policy: pathlib.Path | None = None
    host: str = "127.0.0.1"
    port: int = 8080
    has_port: bool = True
    socket: pathlib.Path | None = None
    tick_seconds: int = 0
    claim_seconds: float = 300.0
    key_seconds: float = 3600.0
    head_seconds: float = 60.0
    # Starts of the monitor that may fail within a minute before the front end ends.
    restarts: int = 10
    accepts_loss: bool = False
    cors: tuple[str, ...] = ()
    has_open_metrics: bool = False
    access_log: pathlib.Path | None = None
    limits: Limits = Limits()


class BadWords(ValueError):
    """The words ask for something that can't be."""


def address(text: str) -> tuple[str, int]:
    """HOST:PORT, the host an IP address or `localhost`."""
    host, colon, port = text.rpartition(":")
    host = host.removeprefix("[").removesuffix("]")
    try:
        if not colon or not 0 <= int(port) <= 65535:
            raise ValueError
        if host != "localhost":
            ipaddress.ip_address(host)
    except ValueError:
        raise argparse.ArgumentTypeError(f"`{text}` is no ADDRESS:PORT, as 127.0.0.1:8080 or [::1]:8080") from None
    return host, int(port)


def count(least: int, most: int) -> Callable[[str], int]:
    def read(text: str) -> int:
        if not text.isdecimal() or not least <= int(text) <= most:
            raise argparse.ArgumentTypeError(f"`{text}` is no number from {least} to {most}")
        return int(text)

    return read


def parser() -> argparse.ArgumentParser:
    says = "Serves a journal's monitor over HTTP. `ucon front add-user` makes users."
    words = argparse.ArgumentParser("ucon front", description=says, allow_abbrev=False)
    add = words.add_argument
    add("--journal", required=True, type=pathlib.Path, help="the journal, made where it isn't there")
    add("--policy", type=pathlib.Path, help="the policy that the journal begins with; it may be left out for one with steps")
    add("--users", required=True, type=pathlib.Path, help="the file of users, which `ucon front add-user` writes")
    add("--listen", type=address, metavar="ADDRESS:PORT", help=f"default {DEFAULT_LISTEN}; none where --socket is given alone")
    add("--socket", type=pathlib.Path, help="a Unix socket, whose peers are known by their uid")
    add("--tick-seconds", type=count(1, 86400), default=0, metavar="N", help="move the tick every N seconds, to the Unix time divided by N")
    add("--claim-seconds", type=count(0, 86400), default=300, metavar="N", help="end uses that nobody claims within N seconds; 0 never does")
    add("--key-seconds", type=count(1, 86400), default=3600, metavar="N", help="how long an Idempotency-Key is kept")
    add("--rate", type=count(1, 100_000), default=50, metavar="N", help="requests a second of one user")
    add("--connections", type=count(1, 100_000), default=1000, metavar="N", help="connections at once")
    add("--restarts", type=count(0, 1000), default=10, metavar="N", help="starts of the monitor that may fail within a minute")
    add("--cors", action="append", default=[], metavar="ORIGIN", help="let pages of this origin ask; may be given again")
    add("--open-metrics", action="store_true", help="serve /metrics to everybody")
    add("--access-log", type=pathlib.Path, metavar="FILE", help="where the access log goes; else to standard error")
    add("--accept-loss", action="store_true", help="go on with a journal that lacks what was told")
    return words


def config_of(words: list[str]) -> Config:
    said = parser().parse_args(words)
    has_port = said.listen is not None or said.socket is None
    host, port = said.listen or address(DEFAULT_LISTEN)
    limits = Limits(connections=said.connections, rate=float(said.rate), burst=max(2 * said.rate, 2))
    return Config(
        said.journal, said.users, said.policy, host, port, has_port, said.socket, said.tick_seconds, float(said.claim_seconds),
        float(said.key_seconds), restarts=said.restarts, accepts_loss=said.accept_loss, cors=tuple(said.cors),
        has_open_metrics=said.open_metrics, access_log=said.access_log, limits=limits,
    )
