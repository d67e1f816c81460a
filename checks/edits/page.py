"""Writes docs/planted-bugs.md: the edits, and what each came to when it was tried last. What stands under its last heading is kept as it is."""
import pathlib
from typing import Dict, List

import book
from book import BROKEN, GATE, HAND, LIMIT, LOST, PROVED, REFUSED, UNTRIED, WRITTEN, Edit, Result

WORDS = {
    REFUSED: "refused",
    WRITTEN: "refused by the written proof",
    LOST: "refused, as a proof names what is gone",
    LIMIT: "refused at a limit of the check",
    GATE: "refused in the gate",
    HAND: "refused as planted by hand",
    PROVED: "proved",
    BROKEN: "broken",
    UNTRIED: "not tried",
}
BY_HAND = "\n## What no edit can be\n"
HEAD = """# Wrong bodies, and what refuses them

For who changes a crate, or asks what its contracts refuse. `checks/edits/run` writes all of this page but its last part. It takes the edits, and what each came to when it was tried last. So a result is of the commit beside it; *changed* says that its crate's own files, or the edit, are others today.

An edit is a file that names a text in a crate and the text to lay over it. Those of the gate stand in `crates/NAME/must-fail`, and `rt ci` tries each of them. All others stand in `checks/edits/NAME`: try them for a crate that you changed, and all before a release.
"""
KINDS = """
- *Refused*: at a goal that the check tries afresh. The first one is named, as the check names it: after *false* it knows values that make it so, after *limit* its search gave up.
- *By the written proof*: first at a goal that a written proof answers, in the file that is named. With *false* that is a refusal like any other; else another proof may exist, so it says less.
- *As a proof names what is gone*: it says next to nothing.
- *At a limit of the check*: it gave up before a verdict, which says less, too.
- *In the gate*: a run of the gate refused it before it was moved here. By which goal wasn't kept.
- *As planted by hand*: it was refused before it was an edit, over an earlier state of its crate, and perhaps in other words. The date is the last of those days.
- *Harmless*: nothing can refuse it, for the reason that its file gives.
"""


def goal_of(result: Result) -> str:
    """Where it is refused, and the goal, as a table may hold them."""
    place, _, goal = result.goal.replace("|", "\\|").partition(" ")
    return f"`{place}`: {goal}" if goal else place


def row_of(edit: Edit, kept: Dict[str, Result], top: pathlib.Path) -> str:
    result = kept.get(edit.name, Result(UNTRIED, "", "", ""))
    is_changed = result.kind != HAND and result.commit and result.sum != book.sum_of(edit, top)
    at = f"{result.commit}{', changed' if is_changed else ''}"
    words = f"harmless: {edit.harmless}" if edit.harmless and result.kind == PROVED else WORDS[result.kind]
    return f"| `{edit.name}` | {words} | {goal_of(result)} | {at} |"


def part_of(crate: str, top: pathlib.Path) -> List[str]:
    """What the page says of one crate, if it has edits."""
    gates, others = book.edits_of(crate, top, True), book.edits_of(crate, top)
    if not gates and not others:
        return []
    lines = ["", f"## {crate}", ""]
    if gates:
        lines += [f"In the gate: {', '.join(f'`{it.name}`' for it in gates)}.", ""]
    if others:
        kept = book.results_of(crate, top)
        lines += ["| edit | result | where | commit |", "|---|---|---|---|", *(row_of(it, kept, top) for it in others)]
    return lines if others else lines[:-1]


def counted(top: pathlib.Path) -> str:
    """How many edits there are, and how many of each result."""
    every = book.crates(top)
    gates = [it for crate in every for it in book.edits_of(crate, top, True)]
    others = [it for crate in every for it in book.edits_of(crate, top)]
    kept = {crate: book.results_of(crate, top) for crate in every}
    kinds = [kept[it.crate][it.name].kind if it.name in kept[it.crate] else UNTRIED for it in others]
    numbers = ", ".join(f"{kinds.count(kind)} {words}" for kind, words in WORDS.items() if kind in kinds)
    here, there = (len({it.crate for it in some}) for some in (others, gates))
    return f"\nThe gate has {len(gates)} edits, of {there} crates. Here are {len(others)} more, of {here} crates: {numbers}.\n"


def text_of(top: pathlib.Path, by_hand: str) -> str:
    parts = [line for crate in book.crates(top) for line in part_of(crate, top)]
    return HEAD + counted(top) + KINDS + "\n".join(parts) + "\n" + BY_HAND + by_hand


def write(top: pathlib.Path) -> None:
    """Writes the page anew, with what stands in it by hand."""
    page = top / "docs" / "planted-bugs.md"
    by_hand = page.read_text().partition(BY_HAND)[2] if page.exists() else ""
    book.write(page, text_of(top, by_hand))
