"""Histories from a number: policies with each kind of predicate and update, and commands of several clients, amendments among them.

Everything comes of one `random.Random`, so a seed always makes the same. Most commands are answered by a change; some are refused."""
import random
import re
from typing import Dict, List, NamedTuple, Tuple

from checks.runs import Line

SUBJECTS = ["ann", "bob", "eve", "guard"]
OBJECTS = ["song", "film", "door"]
RIGHTS = ["play", "read", "open"]
ACTIONS = ["click", "sign", "pay"]
CLIENTS = [1, 2, 3, 4]
TEXTS = ["a", "b", "two words", "back\\slash"]
# Each place that a policy may declare, with its kind. A name always has the same kind, but for one in a few amendments.
PLACES: Dict[str, str] = {"s.n": "int 0..20", "s.t": "text", "s.g": "set", "o.m": "int -3..9", "o.u": "text", "env.h": "int 0..23", "env.w": "text"}


class Session(NamedTuple):
    """A session that a command names: one that is there, by its number, or the nth one that is tried from now on; and whose it is."""

    number: int
    is_new: bool
    client: int


class Asked(NamedTuple):
    """A command of a client; where it names a session, that stands behind it."""

    client: int
    command: str
    session: Tuple[Session, ...] = ()

    def line(self, numbers: Dict[int, int], before: int) -> Line:
        """The line for a journal in which sessions have these numbers, and that has had so many before."""
        named = "".join(f" {before + it.number if it.is_new else numbers[it.number]}" for it in self.session)
        return Line(self.client, f"{self.command}{named}".encode())


class Histories:
    """Draws policies and commands."""

    def __init__(self, seed: int) -> None:
        self.chance = random.Random(seed)
        self.tick = 0
        # Whose each try was, since the commands began.
        self.tries: List[int] = []
        # The entities that were made, by their side; and the rights and actions that the last policy names.
        self.made: Dict[str, List[str]] = {"subject": [], "object": []}
        self.rights: List[str] = []
        self.actions: List[str] = []

    # ---- policies

    def value(self, kind: str) -> str:
        if kind == "text":
            return f'"{self.chance.choice(TEXTS)}"'
        if kind == "set":
            return "{" + ",".join(f'"{it}"' for it in sorted(self.chance.sample(TEXTS, self.chance.randint(0, 3)))) + "}"
        low, high = (int(it) for it in kind[4:].split(".."))
        return str(self.chance.randint(low, high))

    def policy(self) -> str:
        """A policy of several lines, with comments."""
        chance = self.chance
        places = [it for it in PLACES if chance.random() < 0.85]
        lines = [f"{declared(it, self.kind(it))} = {self.value(PLACES[it])};" for it in places]
        self.rights = [it for it in RIGHTS if chance.random() < 0.9]
        text = "".join(f"{line}\n" for line in [*lines, "# rights", *(self.right(it, places) for it in self.rights)])
        self.actions = [it for it in ACTIONS if re.search(f"(done|within [0-9]+|every [0-9]+) {it}", text)]
        return text

    def kind(self, place: str) -> str:
        return "int  0 .. 20" if place == "s.n" and self.chance.random() < 0.3 else PLACES[place]

    def right(self, name: str, places: List[str]) -> str:
        chance = self.chance
        preds = [f"pre {self.pred(places, False)}" for _ in range(chance.choice([0, 0, 1, 1, 2]))]
        ons = [f"on {self.pred(places, True)}" for _ in range(chance.choice([0, 0, 1, 2]))]
        updates = []
        if any(it.split()[1] in "ab" for it in [*preds, *ons]):
            times = ["before", "after_end", "after_revoke"] + ["during"] * any(it.split()[1] in "ab" for it in ons)
            updates = [it for it in (self.update(chance.choice(times), places) for _ in range(chance.choice([0, 1, 2]))) if it]
            updates.sort(key=lambda it: ["before", "during", "after_end", "after_revoke"].index(it.split()[0]))
        labelled = [it.replace(" LABEL:", f" l{n}:", 1) for n, it in enumerate([*preds, *ons])]
        return f"right {name} {{\n" + "".join(f"  {it}\n" for it in [*labelled, *updates]) + "}"

    def pred(self, places: List[str], is_ongoing: bool) -> str:
        kinds = [self.authorisation, self.obligation, self.obligation, self.condition]
        return self.chance.choice(kinds)(places, is_ongoing)

    def authorisation(self, places: List[str], _: bool) -> str:
        found = [self.comparison(it) for it in places if not it.startswith("env.")] or ["1 = 1"]
        formula = self.chance.choice(found)
        if self.chance.random() < 0.3:
            formula = f"{formula} or {self.chance.choice(found)}"
        return f"a LABEL: {formula};"

    def comparison(self, place: str) -> str:
        chance, kind = self.chance, PLACES[place]
        if kind == "text":
            return f'{place} {chance.choice(["=", "!=", "!=", "!="])} "{chance.choice(TEXTS)}"'
        if kind == "set":
            return chance.choice([f'not "{chance.choice(TEXTS)}" in {place}', f"size({place}) < {chance.randint(1, 4)}"])
        return f"{place} {chance.choice(['>= 0', '>= 2', '<= 18', '<= 7', '!= 5'])}"

    def obligation(self, _: List[str], is_ongoing: bool) -> str:
        chance = self.chance
        action = chance.choice(ACTIONS)
        duties = [f"done {action}", f"within {chance.randint(5, 60)} {action}"] + [f"every {chance.randint(10, 60)} {action}"] * (2 * is_ongoing)
        duty = chance.choice(duties)
        by = chance.choice(["", "", ' by "guard"'])
        on = chance.choice(["", "", ' on "door"'])
        return f"b LABEL: {duty}{by}{on};"

    def condition(self, places: List[str], is_ongoing: bool) -> str:
        found = [self.comparison(it) for it in places if it.startswith("env.")] or ["2 < 3"]
        return f"c LABEL: {self.chance.choice(found + [f'lasts {self.chance.randint(20, 90)}'] * is_ongoing)};"

    def update(self, time: str, places: List[str]) -> str:
        found = [it for it in places if not it.startswith("env.")]
        if not found:
            return ""
        place = self.chance.choice(found)
        kind = PLACES[place]
        if kind == "text":
            return f'{time} {place} = "{self.chance.choice(TEXTS)}";'
        sign = self.chance.choice("+-")
        return f'{time} {place} = {place} {sign} ' + (f'"{self.chance.choice(TEXTS)}";' if kind == "set" else f"{self.chance.randint(1, 3)};")

    # ---- commands

    def opening(self) -> List[Asked]:
        """Most of the entities, in any order."""
        names = [("subject", it) for it in SUBJECTS if self.chance.random() < 0.9] + [("object", it) for it in OBJECTS if self.chance.random() < 0.9]
        return [self.making(side, name) for side, name in self.chance.sample(names, len(names))]

    def making(self, side: str, name: str) -> Asked:
        self.made[side].append(name)
        return Asked(0, f"{side} {name}")

    def one_of(self, known: List[str], others: List[str]) -> str:
        """Mostly one that is known, so that few commands are refused."""
        return self.chance.choice(known if known and self.chance.random() < 0.97 else others)

    def subject(self) -> str:
        return self.one_of(self.made["subject"], SUBJECTS)

    def object(self) -> str:
        return self.one_of(self.made["object"], OBJECTS)

    def act(self) -> Asked:
        return Asked(self.chance.choice([0, *CLIENTS]), f"act {self.subject()} {self.one_of(self.actions, ACTIONS)} {self.object()}")

    def command(self, known: List[Session]) -> Asked:
        """One command. A session that it names is one of these, or one that was tried by now."""
        chance, drawn = self.chance, self.chance.random()
        if drawn < 0.28:
            self.tries.append(chance.choice(CLIENTS))
            return Asked(self.tries[-1], f"try {self.subject()} {self.one_of(self.rights, RIGHTS)} {self.object()}")
        if drawn < 0.53:
            return self.of_session(known)
        if drawn < 0.66:
            return self.act()
        if drawn < 0.76:
            self.tick += chance.choice([0, 1, 3, 7, 15])
            return Asked(0, f"tick {self.tick}")
        if drawn < 0.88:
            return self.setting()
        if drawn < 0.91:
            return Asked(0, "amend " + " ".join(line for line in self.policy().splitlines() if not line.startswith("#")))
        if drawn < 0.94:
            side = chance.choice(["subject", "object"])
            return self.making(side, chance.choice([*(SUBJECTS if side == "subject" else OBJECTS), "late"]))
        place = chance.choice([it for it in PLACES if not it.startswith("env.")])
        return Asked(chance.choice(CLIENTS), f"value {place[0]} {self.subject() if place[0] == 's' else self.object()} {place[2:]}")

    def of_session(self, known: List[Session]) -> Asked:
        """Mostly by its owner, since who names a session of another is refused."""
        first = max(0, len(self.tries) - 12)
        made = [*known, *(Session(n, True, client) for n, client in enumerate(self.tries[first:], first + 1))]
        if not made:
            return self.act()
        named = self.chance.choice(made)
        client = named.client if self.chance.random() < 0.9 else self.chance.choice(CLIENTS)
        return Asked(client, self.chance.choice(["again", "again", "again", "again", "beat", "beat", "end", "look"]), (named,))

    def setting(self) -> Asked:
        chance = self.chance
        place = chance.choice(list(PLACES))
        side, _, name = place.partition(".")
        if side == "env":
            return Asked(0, f"env {name} {self.value(PLACES[place])}")
        return Asked(0, f"set {side} {self.subject() if side == 's' else self.object()} {name} {self.value(PLACES[place])}")


def declared(place: str, kind: str) -> str:
    side, _, name = place.partition(".")
    return f"env {name} : {kind}" if side == "env" else f"attr {side} {name} : {kind}"
