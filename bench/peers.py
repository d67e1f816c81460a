"""What a user might take instead, and the device itself: SQLite, a bare loop of a journal's device calls, and Casbin.

Each is skipped with a line where it isn't installed. SQLite and the loop make as many steps durable as `durable` does; Casbin makes
the decision of `decisions`, and no more: it keeps no sessions, writes no attribute and asks nothing again while a use goes on."""
import os
import pathlib
import subprocess
import time
from typing import Callable

from measure import lacks

ROUNDS = 3
CASBIN_PACKAGE = "golang-github-casbin-casbin-dev"
# The mean size of the payloads of `durable`.
PAYLOAD = b"1 try u7 play v11\npermitted 123"


def best(loop: Callable[[], float]) -> float:
    return min(loop() for _ in range(ROUNDS))


def told(name: str, seconds: float) -> None:
    print(f"{name:<42}{seconds * 1e6:10.1f} us per step {1 / seconds:12,.0f} steps per second", flush=True)


def device(folder: pathlib.Path, steps: int) -> None:
    """The four device calls of a step, as docs/journal-format.md has them, and nothing else."""
    path = folder / "device"

    def loop() -> float:
        file = os.open(path, os.O_RDWR | os.O_CREAT | os.O_TRUNC, 0o600)
        os.pwrite(file, b"UCONJR02\0", 0)
        os.fdatasync(file)
        gate = 8
        record = len(PAYLOAD).to_bytes(4, "big") + PAYLOAD + b"\0"
        began = time.perf_counter()
        for _ in range(steps):
            os.pwrite(file, record, gate + 1)
            os.fdatasync(file)
            os.pwrite(file, b"\1", gate)
            os.fdatasync(file)
            gate += len(record)
        taken = time.perf_counter() - began
        os.close(file)
        path.unlink()
        return taken / steps

    told("the journal's device calls alone", best(loop))


def sqlite(folder: pathlib.Path, steps: int) -> None:
    """One row a step, each in a transaction of its own that is durable when it is answered."""
    try:
        import sqlite3
    except ImportError:
        print("SQLite: skipped, this Python has no sqlite3")
        return
    path = folder / "sqlite"

    def clean() -> None:
        for ending in ("", "-wal", "-shm", "-journal"):
            pathlib.Path(f"{path}{ending}").unlink(missing_ok=True)

    def loop(mode: str) -> float:
        clean()
        base = sqlite3.connect(path, isolation_level=None)
        base.execute(f"pragma journal_mode={mode}")
        base.execute("pragma synchronous=FULL")
        base.execute("create table step(place integer primary key, caller integer, command text, reply text)")
        began = time.perf_counter()
        for place in range(1, steps + 1):
            base.execute("insert into step values(?, ?, ?, ?)", (place, 1, "try u7 play v11", f"permitted {place}"))
        taken = time.perf_counter() - began
        base.close()
        clean()
        return taken / steps

    for mode in ("WAL", "DELETE"):
        told(f"SQLite {sqlite3.sqlite_version}, {mode}, synchronous FULL", best(lambda: loop(mode)))


def casbin(folder: pathlib.Path) -> None:
    missing = lacks("go", "dpkg")
    words = ["dpkg", "-L", CASBIN_PACKAGE]
    listed = b"" if missing else subprocess.run(words, stdout=subprocess.PIPE, stderr=subprocess.DEVNULL, check=False).stdout
    source = next((line for line in listed.decode().splitlines() if line.endswith("casbin/enforcer.go")), None)
    if source is None:
        print(f"Casbin: skipped, the packages golang-go and {CASBIN_PACKAGE} aren't both installed")
        return
    go_path, _, package = os.path.dirname(source).partition("/src/")
    place = folder / "casbin"
    place.mkdir(exist_ok=True)
    program = (pathlib.Path(__file__).parent / "casbin.go.in").read_text().replace("CASBIN", package)
    (place / "main.go").write_text(program)
    env = {**os.environ, "GO111MODULE": "off", "GOPATH": go_path, "GOCACHE": str(folder / "go"), "GOMAXPROCS": "1"}
    subprocess.run(["go", "build", "-o", "decide", "main.go"], cwd=place, env=env, check=True)
    version = subprocess.run(["dpkg-query", "-W", "-f", "${Version}", CASBIN_PACKAGE], stdout=subprocess.PIPE, check=True).stdout
    print(f"Casbin {version.decode()}, on one processor:", flush=True)
    subprocess.run([str(place / "decide")], env=env, check=True)
