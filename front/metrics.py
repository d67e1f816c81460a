"""Figures in the text that Prometheus reads."""
from collections import Counter
from collections.abc import Iterable, Iterator

# The upper bounds of a histogram's cells, in seconds.
BOUNDS = (0.0005, 0.001, 0.0025, 0.005, 0.01, 0.025, 0.05, 0.1, 0.25, 0.5, 1.0, 2.5, 5.0, 10.0)


class Histogram:
    """How long something took, by cells."""

    def __init__(self) -> None:
        self.cells = [0] * (len(BOUNDS) + 1)
        self.sum = 0.0

    def note(self, seconds: float) -> None:
        self.cells[next((n for n, bound in enumerate(BOUNDS) if seconds <= bound), len(BOUNDS))] += 1
        self.sum += seconds

    def lines(self, name: str) -> Iterator[str]:
        below = 0
        for bound, count in zip((*map(str, BOUNDS), "+Inf"), self.cells):
            below += count
            yield f'{name}_bucket{{le="{bound}"}} {below}'
        yield f"{name}_sum {self.sum:.6f}"
        yield f"{name}_count {below}"


class Requests:
    """What was asked over HTTP, by route and status."""

    def __init__(self) -> None:
        self.answered: Counter[tuple[str, int]] = Counter()
        self.refused: Counter[str] = Counter()
        self.seconds = Histogram()


def metric(name: str, kind: str, says: str, rows: Iterable[str]) -> str:
    return f"# HELP {name} {says}\n# TYPE {name} {kind}\n" + "".join(f"{it}\n" for it in rows)


def single(name: str, kind: str, says: str, value: int | float) -> str:
    return metric(name, kind, says, [f"{name} {value}"])


def histogram(name: str, says: str, value: Histogram) -> str:
    return metric(name, "histogram", says, value.lines(name))


def labelled(name: str, says: str, counts: Counter[str], label: str) -> str:
    return metric(name, "counter", says, [f'{name}{{{label}="{it}"}} {n}' for it, n in sorted(counts.items())])


def of_requests(requests: Requests) -> str:
    rows = [f'ucon_front_requests_total{{route="{route}",status="{status}"}} {n}' for (route, status), n in sorted(requests.answered.items())]
    return (
        metric("ucon_front_requests_total", "counter", "Requests by route and status.", rows)
        + labelled("ucon_front_refused_total", "Requests refused before a route, by cause.", requests.refused, "cause")
        + histogram("ucon_front_request_seconds", "Time of a request.", requests.seconds)
    )
