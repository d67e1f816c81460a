"""`ucon state JOURNAL`: what stands in a journal, in tables; `--json` is the text of the program's `report`, and `--metrics` counts for
Prometheus (its text format, version 0.0.4)."""
import os
import pathlib
from typing import Callable, Dict, Iterator, List, NamedTuple, Optional, Sequence, Tuple, Union

from launcher import program
from launcher.journal import Journal, open_journal
from launcher.output import say_cut_off, write
from launcher.pointed import OPEN, Row, State
from launcher.reading import is_path
from launcher.standing import Standing, standing
from launcher.told import path_of, read_told

# How many subjects, or objects, sessions, acts and uses in progress a journal has at most.
ENTITIES, SESSIONS, ACTS, ACCESSING = 16_384, 1_048_576, 1_048_576, 65_536
# A column is filled up to so many characters; what is longer stands as it is.
WIDEST = 32
FORMS = ("--json", "--metrics")
# The head of what is known of each session.
USE = ("client", "subject", "right", "object")
# The cells of a column: texts, or rising numbers.
Column = Union[Sequence[str], Sequence[int]]


class Asked(NamedTuple):
    path: str
    form: str


def asked_of(words: List[str]) -> Optional[Asked]:
    """What the words ask. None where they are no `state`."""
    if words[:1] != ["state"] or len(words) not in (2, 3) or not is_path(words[1]):
        return None
    return Asked(words[1], "") if len(words) == 2 else Asked(words[1], words[2]) if words[2] in FORMS else None


def run(path_of_program: pathlib.Path, asked: Asked) -> int:
    with program.ended_by_signals(), open_journal(asked.path) as journal:
        found = standing(path_of_program, journal)
        if asked.form == "--json":
            write(found.report())
        else:
            lines = metrics(journal, found) if asked.form else tables(found.state)
            write("\n".join([*lines, ""]).encode())
        say_cut_off(journal, found.end)
    return 0


# ---- tables


def tables(state: State) -> Iterator[str]:
    yield f"tick {state.tick}"
    yield f"steps {state.entries}"
    yield from table(("variable", "value"), list(zip(*sorted(state.env.items()))))
    yield from entities("subject", state.subjects)
    yield from entities("object", state.objects)
    acts = [(it.action, it.subject, it.object, str(it.at)) for it in state.acts]
    yield from table(("act", "subject", "object", "tick"), list(zip(*acts)))
    yield from sessions(("use", *USE, "since"), state, "accessing")
    yield from sessions(("waiting", *USE), state, "requesting")
    closed = ", ".join(f"{count} {name}" for name, count in state.counts.items() if name not in OPEN)
    yield ""
    yield f"sessions {state.tried}: {state.counts['accessing']} in use, {state.counts['requesting']} waiting, {closed}"


def entities(side: str, found: Dict[str, Row]) -> Iterator[str]:
    """A table of entities, by their names, and by those of the attributes."""
    rows = [found[name] for name in sorted(found)]
    names = sorted(rows[0]) if rows else []
    return table((side, *names), [sorted(found), *([row[name] for row in rows] for name in names)])


def sessions(head: Sequence[str], found: State, state: str) -> Iterator[str]:
    """A table of the sessions in one state, which are read twice: for the widths, and for the rows."""
    def parts() -> Iterator[List[Column]]:
        those = (it for it in found.of(state) if it.numbers)
        return ([it.numbers, it.clients, it.subjects, it.rights, it.objects, it.starts][: len(head)] for it in those)

    return table_of(head, parts)


def table(head: Sequence[str], columns: List[Column]) -> Iterator[str]:
    return table_of(head, lambda: iter([columns] if columns and columns[0] else []))


def table_of(head: Sequence[str], parts: Callable[[], Iterator[List[Column]]]) -> Iterator[str]:
    """An empty line, the head and the rows, of which the columns come in parts. Nothing where there is no row."""
    widths = [0] * len(head)
    for columns in parts():
        widths = list(map(max, widths, map(width_of, columns)))
    if not any(widths):
        return
    form = "".join(f"%-{min(max(len(name), width), WIDEST)}s  " for name, width in zip(head[:-1], widths)) + "%s"
    yield ""
    yield form % tuple(head)
    for columns in parts():
        yield from map(form.__mod__, zip(*columns))


def width_of(column: Column) -> int:
    """The width of a column's widest cell. Numbers rise."""
    return len(str(column[-1])) if isinstance(column[-1], int) else max(map(len, column))


# ---- metrics


class Metric(NamedTuple):
    """A metric with its type, what it says, and its values by their labels."""

    name: str
    kind: str
    says: str
    values: Sequence[Tuple[str, int]]


def metrics(journal: Journal, found: Standing) -> Iterator[str]:
    label = 'journal="' + "".join({"\\": "\\\\", '"': '\\"', "\n": "\\n"}.get(it, it) for it in journal.name) + '"'
    for metric in metrics_of(journal, found):
        yield f"# HELP ucon_{metric.name} {metric.says}"
        yield f"# TYPE ucon_{metric.name} {metric.kind}"
        for more, value in metric.values:
            yield f"ucon_{metric.name}{{{label}{more}}} {value}"


def metrics_of(journal: Journal, found: Standing) -> List[Metric]:
    """What is counted of a journal and of its state."""
    state = found.state
    sides = [("subject", len(state.subjects)), ("object", len(state.objects))]
    told = read_told(path_of(os.path.realpath(journal.name)))
    return [
        Metric("journal_bytes", "gauge", "Size of the journal's file.", [("", journal.size)]),
        Metric("journal_torn_bytes", "gauge", "Bytes behind the last whole record.", [("", journal.end(found.end).behind)]),
        Metric("records", "gauge", "Records, the policy and checkpoints included.", [("", found.records)]),
        Metric("steps_total", "counter", "Steps in the journal.", [("", state.entries)]),
        Metric("told_steps", "gauge", "Steps that the companion file says were told.", [("", told.place if told else 0)]),
        Metric("tick", "gauge", "The tick.", [("", state.tick)]),
        Metric("sessions", "gauge", "Sessions by state.", [(f',state="{name}"', count) for name, count in state.counts.items()]),
        Metric("sessions_left", "gauge", f"Sessions that can still be tried, of {SESSIONS}.", [("", SESSIONS - state.tried)]),
        Metric("uses_left", "gauge", f"Uses that can still begin, of {ACCESSING} at once.", [("", ACCESSING - state.counts["accessing"])]),
        Metric("entities", "gauge", "Subjects and objects.", [(f',side="{side}"', count) for side, count in sides]),
        Metric(
            "entities_left", "gauge", f"Subjects and objects that can still be made, of {ENTITIES} each.",
            [(f',side="{side}"', ENTITIES - count) for side, count in sides],
        ),
        Metric("acts", "gauge", "Different acts that were done.", [("", len(state.acts))]),
        Metric("acts_left", "gauge", f"Different acts that can still be done, of {ACTS}.", [("", ACTS - len(state.acts))]),
    ]
