"""`ucon lint FILE`: what a policy does that may surprise. It is read off the policy, proves nothing, and may be wrong."""
import pathlib
import subprocess
import sys
from typing import Callable, Dict, Iterator, List, NamedTuple, Optional, Tuple

from launcher import hints
from launcher.formula import Attribute, Number, Place, Predicate, Reader, Right, Sum, Update, places_in
from launcher.policy import Item, Token, items_of, tokens_of
from launcher.program import Ended, ended_as
from launcher.ranges import Known, direction, falsified_by, truth
from launcher.source import Document, Span, policy_end

# How long the program may take to judge the document, in seconds, and how many steps of a chain are told.
LONGEST, STEPS = 120, 4
CHECK = ["check"]
# What comes of an obligation that nobody meets, by its time and whether it is an `every`.
UNDONE = {
    ("pre", False): "a try waits for good",
    ("on", False): "a use is revoked as it begins",
    ("on", True): "a use is revoked when its ticks are over",
}
# The times at which updates undo what `before` did.
BACK = ("after_end", "after_revoke")
# What may be asked before an update of a time.
ASKING = {
    "before": "ask in a `pre a` predicate whether it fits, or ",
    "during": "ask in an `on a` predicate whether the next one fits, or ",
    "after_end": "ask in an `on a` predicate whether it fits, or ",
}
MAY_BE_WRONG = "the launcher reads them off the policy and proves nothing, so one may be wrong, and others may be missing"
NOTHING = "the launcher looks for a few things that surprise, and may miss others"


class Finding(NamedTuple):
    """A warning by its name: where, what may happen, and what mends it."""

    name: str
    mark: Span
    says: str
    mend: str


class Policy(NamedTuple):
    declared: Dict[Place, Attribute]
    rights: List[Right]
    made: Dict[str, List[str]]

    @property
    def known(self) -> Known:
        return Known({place: it.range for place, it in self.declared.items() if it.is_int}, [])


# ---- reading


def number_in(tokens: List[Token]) -> int:
    return int(b"".join(token.raw for token in tokens))


def attribute_of(item: Item) -> Attribute:
    side, at = (item.tokens[1].raw.decode(), 2) if item.kind == "attr" else ("env", 1)
    name, kind = item.tokens[at], item.tokens[at + 2].raw
    words = [token.raw for token in item.tokens]
    is_int = kind == b"int"
    dots, equal = (words.index(b".."), words.index(b"=")) if is_int else (0, 0)
    span = (number_in(item.tokens[at + 3 : dots]), number_in(item.tokens[dots + 1 : equal])) if is_int else (0, 0)
    return Attribute(Place(side, name.raw.decode()), span, is_int, name.span)


def predicate_of(item: Item) -> Predicate:
    time, sort, label = (token.raw.decode() for token in item.tokens[:3])
    formula = None if sort == "b" else Reader(item.tokens[4:-1]).formula()
    return Predicate(time, sort, label, formula, item.span, item.tokens[2].span, item.tokens)


def update_of(item: Item) -> Update:
    place = Place(item.tokens[1].raw.decode(), item.tokens[3].raw.decode())
    return Update(item.tokens[0].raw.decode(), place, Reader(item.tokens[5:-1]).expr(), item.span)


def policy_of(document: Document) -> Policy:
    end = policy_end(document.raw)
    declared: Dict[Place, Attribute] = {}
    rights: List[Right] = []
    for item in items_of(tokens_of(document.raw[:end])).items:
        if item.kind in ("attr", "env"):
            it = attribute_of(item)
            declared[it.place] = it
        elif item.kind == "right":
            rights.append(Right(item.right.decode(), item.tokens[1].span, [], []))
        elif item.kind == "predicate":
            rights[-1].predicates.append(predicate_of(item))
        else:
            rights[-1].updates.append(update_of(item))
    script = document.raw[end:].decode(errors="replace").splitlines()
    made = {side: [line.split(" ")[1] for line in script if line.startswith(f"{side} ")] for side in ("subject", "object")}
    return Policy(declared, rights, made)


# ---- the warnings


def guarded(policy: Policy, right: Right, time: str) -> Known:
    """What is known as the updates of a time begin. A revoked use has a false predicate, so nothing is known of it."""
    asked = {"before": right.asks("pre"), "during": right.asks("on"), "after_end": right.asks("on"), "after_revoke": []}[time]
    known = policy.known
    for it in asked:
        known = known.holds(it.formula) if it.formula else known
    return known


def is_step(update: Update) -> bool:
    """Whether an update counts by a number, as `x = x + 1`."""
    return isinstance(update.value, Sum) and update.value.left == update.place and isinstance(update.value.right, Number)


def reverse(update: Update) -> Sum:
    """The value that takes a step back."""
    turned = {"+": "-", "-": "+"}
    return Sum(turned.get(update.value.sign, ""), update.place, update.value.right)


def is_counter(policy: Policy, update: Update) -> bool:
    """Whether an update counts one, or some update of the policy takes the same step back."""
    if not is_step(update):
        return False
    both = (other for right in policy.rights for other in right.updates if other.place == update.place)
    return update.value.right in (Number(1), Number(-1)) or any(other.value == reverse(update) for other in both)


def undoes(right: Right, update: Update) -> bool:
    """Whether an update takes back, step by step, what a `before` of the right did."""
    if update.time not in BACK or not is_step(update):
        return False
    return any(it.place == update.place and it.value == reverse(update) for it in right.changes("before"))


def clamped(policy: Policy) -> Iterator[Finding]:
    """Counters that can meet their bound, and other updates whose value may not fit."""
    for right in policy.rights:
        for time in ("before", "during", "after_end", "after_revoke"):
            known = guarded(policy, right, time)
            for update in right.changes(time):
                declared = policy.declared[update.place]
                there = known.range_of(update.value)
                if there and not known.is_impossible() and not undoes(right, update):
                    yield from of_update(policy, update, declared, there)
                if declared.is_int:
                    known = known.wrote(update.place, update.value, declared.range)


def of_update(policy: Policy, update: Update, declared: Attribute, there: Tuple[int, int]) -> Iterator[Finding]:
    (low, high), name = declared.range, f"`{update.place}`"
    if there[0] >= low and there[1] <= high:
        return
    if is_counter(policy, update):
        bound = high if there[1] > high else low
        says = f"{name} can meet its bound {bound} here, and then it stays there: what goes {'above' if bound == high else 'below'} isn't counted"
        yield Finding("counter", update.span, says, room_for(update, declared, there[1] > high))
    else:
        says = f"the value may be from {there[0]} to {there[1]}, and {name} is {low}..{high}: what doesn't fit is clamped, and not refused"
        yield Finding("clamp", update.span, says, f"{ASKING.get(update.time, '')}give the attribute a wider range")


def room_for(update: Update, declared: Attribute, is_above: bool) -> str:
    """How a counter is kept from its bound."""
    step = abs(update.value.right.value)
    asks = f"{update.place} <= {declared.range[1] - step}" if is_above else f"{update.place} >= {declared.range[0] + step}"
    time = {"before": "pre", "during": "on"}.get(update.time)
    return f"ask for room first, as `{time} a room: {asks};`, or give it a wider range" if time else "give it a wider range"


def named_things(policy: Policy) -> Iterator[Finding]:
    """Obligations of a subject or an object by its name, which have to be made first."""
    for right in policy.rights:
        for it in right.predicates:
            for word, token in zip(it.tokens[3:], it.tokens[4:]) if it.sort == "b" else ():
                kind = {b"on": "object", b"by": "subject"}.get(word.raw)
                name = token.raw.decode().strip('"')
                if kind and token.kind == "text" and name not in policy.made[kind]:
                    says = f"where there is no {kind} `{name}`, nobody has done this: {UNDONE[it.time, it.tokens[4].raw == b'every']}"
                    yield Finding("named", token.span, says, f"make it before the first use: `{kind} {name}`")


def never(policy: Policy) -> Iterator[Finding]:
    """Rights that nobody can get, or keep, under any values of the declared ranges."""
    for right in policy.rights:
        for time, says in (("pre", "so nobody gets"), ("on", "so each use is revoked at once of")):
            known = policy.known
            for it in right.asks(time):
                if not it.formula:
                    continue
                alone = truth(policy.known, it.formula) is False or policy.known.holds(it.formula).is_impossible()
                known = known.holds(it.formula)
                if alone or known.is_impossible() or truth(known, it.formula) is False:
                    why = "is false whatever the values are" if alone else "is false where those before it hold"
                    mend = "look at the comparison, and at the ranges of what it reads"
                    yield Finding("never", it.span, f"`{it.label}` {why}, {says} `{right.name}`", mend)
                    break


def shared_labels(policy: Policy) -> Iterator[Finding]:
    """Labels that stand in two rights, whose replies don't tell which."""
    first: Dict[str, Right] = {}
    for right in policy.rights:
        for it in right.predicates:
            other = first.setdefault(it.label, right)
            if other is not right:
                says = f"the right `{other.name}` has a label `{it.label}`, too: `denied 1 {it.label}` doesn't tell which right it was"
                yield Finding("label", it.label_span, says, f"give it a name of its own, as `{right.name}_{it.label}`"[:80])


class Step(NamedTuple):
    """A revocation of one right that may make a predicate of another false."""

    right: Right
    update: Update
    other: Right
    predicate: Predicate

    def __str__(self) -> str:
        return f"the revocation of `{self.right.name}` writes `{self.update.place}`, and `{self.predicate.label}` of `{self.other.name}` reads it"


def steps_of(policy: Policy, right: Right) -> Iterator[Step]:
    for update in right.changes("after_revoke"):
        moves = direction(policy.known, update.place, update.value)
        for other in policy.rights:
            for it in other.asks("on"):
                if it.formula and update.place in places_in(it.formula) and moves & falsified_by(policy.known, it.formula, update.place):
                    yield Step(right, update, other, it)


def chains(policy: Policy) -> Iterator[Finding]:
    """Updates of a revocation that can revoke other uses, with what may follow from that."""
    for right in policy.rights:
        told = set()
        for step in steps_of(policy, right):
            if step.update in told:
                continue
            told.add(step.update)
            chain = chain_from(policy, step)
            ends = " and so on" if len(chain) == STEPS else ""
            says = f"a revocation can revoke others: {'; '.join(map(str, chain))}{ends}"
            yield Finding("chain", step.update.span, says, "where that isn't meant, write another attribute, or read another one")


def chain_from(policy: Policy, step: Step) -> List[Step]:
    chain, seen = [step], {step.right.name}
    while len(chain) < STEPS and chain[-1].other.name not in seen:
        seen.add(chain[-1].other.name)
        following = next(steps_of(policy, chain[-1].other), None)
        if following is None:
            break
        chain.append(following)
    return chain


ALL: List[Callable[[Policy], Iterator[Finding]]] = [clamped, named_things, never, shared_labels, chains]


def findings_of(document: Document) -> List[Finding]:
    """The warnings of a document whose policy is accepted, in written order."""
    policy = policy_of(document)
    return sorted((it for warns in ALL for it in warns(policy)), key=lambda it: it.mark)


# ---- the word


class Asked(NamedTuple):
    """A document that is to be looked at, and whether a warning is a failure."""

    file: str
    is_strict: bool


def file_of(words: List[str]) -> Optional[Asked]:
    """What these words ask. None where they are none of this form."""
    rest = [word for word in words[1:] if word != "--strict"]
    if words[:1] != ["lint"] or len(rest) != 1 or rest[0].startswith("-") or len(words) - len(rest) > 2:
        return None
    return Asked(rest[0], len(words) > 2)


def run(path_of_program: pathlib.Path, asked: Asked) -> int:
    """Warns of what a document's policy shows. 1 where it can't be read, or where there is a warning and it is to be strict."""
    try:
        raw = pathlib.Path(asked.file).read_bytes()
    except OSError as why:
        print(f"ucon: {asked.file}: {why.strerror}", file=sys.stderr)
        return 1
    ended = judged(path_of_program, raw)
    if ended.status:
        sys.stderr.write(ended.errors.decode(errors="replace") + hints.behind(path_of_program, CHECK, ended, asked.file, raw))
        return ended.status
    document = Document(asked.file, raw)
    found = findings_of(document)
    for it in found:
        sys.stdout.write(f"{document.marked(it.mark, f'warning {it.name}: {it.says}')}mend: {it.mend}\n")
    print(f"{len(found)} warning{'s' * (len(found) != 1)}: {MAY_BE_WRONG if found else NOTHING}")
    return 1 if found and asked.is_strict else 0


def judged(path_of_program: pathlib.Path, raw: bytes) -> Ended:
    """What the program says of the document: only of an accepted one something is read."""
    words = [str(path_of_program), *CHECK]
    ran = subprocess.run(words, input=raw, stdout=subprocess.DEVNULL, stderr=subprocess.PIPE, timeout=LONGEST, check=False)
    return Ended(ended_as(ran.returncode), ran.stderr)
