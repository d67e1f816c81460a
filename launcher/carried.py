"""What a journal is made of that goes on where another one is, without its past: the commands for its state, with what each is answered.

It begins under a policy with the declarations of the one in force, and with rights of the same names that ask and change nothing. Under it
are made entities, and in the order of time ticks, acts at their moments, and the uses that go on, each by its own client, at its start's
tick and in the order of the numbers. Then values are set, and `amend` puts the policy in force.

The steps are written as records of a journal. Whether each is answered so, the program says as it opens that: it runs every one."""
from itertools import chain, count
from typing import Dict, Iterator, List, NamedTuple, Sequence, Tuple

from launcher.journal import FRESH_MAGIC
from launcher.pointed import Row, Sessions, State
from launcher.policy import Item, items_of, one_line, tokens_of

# The greatest numbers of rights, of predicates of a right, and of bytes of a policy (docs/policy-language.md).
RIGHTS, PREDICATES, LONGEST = 64, 16, 65_536


class Refusal(Exception):
    """Why a state can't be carried."""


class Plan(NamedTuple):
    """The policy that a new journal begins with, the payloads of its steps, the policy that its last one puts in force, and the old numbers
    of its uses, which have the numbers from 1 in it."""

    first: bytes
    steps: List[str]
    last: bytes
    numbers: Sequence[int]

    def payloads(self) -> List[bytes]:
        """The new journal's records."""
        return [self.first, *"\0".join(self.steps).encode().split(b"\0")]


# ---- policies


class Policies(NamedTuple):
    """The policy in force on one line, the first one, and the one under which each try waits; each attribute's default by its place, as
    `s.credit` and `env.hour`."""

    in_force: bytes
    first: bytes
    waits: bytes
    defaults: Dict[str, str]


def policies_for(policy: bytes, state: State) -> Policies:
    items = items_of(tokens_of(policy)).items
    declared = [it for it in items if it.kind in ("attr", "env")]
    rights = [it.right.decode() for it in items if it.kind == "right"]
    actions = list(dict.fromkeys(it.action for it in state.acts))
    more = -(-len(actions) // PREDICATES)
    if len(rights) + more > RIGHTS:
        # A right that nobody has in use isn't needed.
        rights = list(dict.fromkeys(chain.from_iterable(part.rights for part in state.of("accessing"))))
    if len(rights) + more > RIGHTS:
        says = f"{len(rights)} rights are in use, and {len(actions)} actions were done, for which a policy of {RIGHTS} rights has no room"
        raise Refusal(says)
    front = [one_line(policy[it.span.start : it.span.end]).decode() for it in declared]
    never = free_name("never", actions)
    first = [*front, *(f"right {it} {{}}" for it in rights), *naming(actions, rights)]
    waits = [*front, *(f"right {it} {{ pre b waits: done {never}; }}" for it in rights)]
    found = Policies(one_line(policy), in_lines(first), " ".join(waits).encode(), dict(map(default_of, declared)))
    if max(len(found.first), len(found.waits)) > LONGEST:
        raise Refusal(f"the policy under which its uses and acts can be made has more than {LONGEST} bytes")
    return found


def in_lines(lines: List[str]) -> bytes:
    return "".join(f"{line}\n" for line in lines).encode()


def naming(actions: List[str], rights: List[str]) -> Iterator[str]:
    """Rights that nobody tries, whose obligations name each action, so that it can be done."""
    taken = list(rights)
    for at in range(0, len(actions), PREDICATES):
        taken.append(free_name("carried", taken))
        names = " ".join(f"pre b a{n}: done {action};" for n, action in enumerate(actions[at : at + PREDICATES], 1))
        yield f"right {taken[-1]} {{ {names} }}"


def free_name(name: str, taken: List[str]) -> str:
    return next(it for n in range(len(taken) + 1) for it in [f"{name}{n or ''}"] if it not in taken)


def default_of(item: Item) -> Tuple[str, str]:
    """A declaration's place, and its default as a command spells it."""
    words = [token.raw.decode() for token in item.tokens]
    default = "".join(words[words.index("=") + 1 : -1])
    place = f"{words[1]}.{words[2]}" if item.kind == "attr" else f"env.{words[1]}"
    return place, "0" if default == "-0" else default


def named_actions(policy: bytes) -> List[str]:
    """The actions that the obligations of a policy name."""
    found = []
    for item in items_of(tokens_of(policy)).items:
        words = [token.raw.decode() for token in item.tokens]
        if item.kind == "predicate" and words[1] == "b":
            found.append(words[5] if words[4] == "done" else words[6])
    return found


# ---- steps


def plan(policy: bytes, state: State) -> Plan:
    """How a journal of this state is made under this policy in force. Refused by `Refusal` where it can't be."""
    policies = policies_for(policy, state)
    steps = [f"0 {side} {name}\nok" for side, found in (("subject", state.subjects), ("object", state.objects)) for name in found]
    uses = list(state.of("accessing"))
    starts = [start for part in uses for start in map(int, part.starts)]
    order = sorted(starts)
    if order == starts:
        begins = tried(uses, "%s try %s %s %s\npermitted %d")
    else:
        # A use began later than one with a higher number: all are tried first, in the order of their numbers, and begin as `again` is told.
        steps.append(amended(policies.waits))
        steps += tried(uses, "%s try %s %s %s\nwaiting %d waits")
        steps.append(amended(one_line(policies.first)))
        clients = chain.from_iterable(part.clients for part in uses)
        again = [f"{client} again {number}\npermitted {number}" for number, client in enumerate(clients, 1)]
        begins = [again[place] for place in sorted(range(len(starts)), key=starts.__getitem__)]
    steps += in_time(state, begins, order)
    steps += values("s", state.subjects, policies.defaults)
    steps += values("o", state.objects, policies.defaults)
    steps += [f"0 env {name} {value}\nok" for name, value in state.env.items() if value != policies.defaults[f"env.{name}"]]
    steps.append(amended(policies.in_force))
    return Plan(policies.first, steps, policies.in_force, [number for part in uses for number in part.numbers])


def tried(uses: List[Sessions], form: str) -> List[str]:
    """For each use a step that tries it, under its new number."""
    numbers = count(1)
    return [step for it in uses for step in map(form.__mod__, zip(it.clients, it.subjects, it.rights, it.objects, numbers))]


def amended(policy: bytes) -> str:
    return f"0 amend {policy.decode()}\nok"


def in_time(state: State, begins: List[str], starts: List[int]) -> List[str]:
    """Ticks, acts, and the steps by which uses begin, whose ticks rise; all in the order of time, up to the tick."""
    acts: Dict[int, List[str]] = {}
    for act in state.acts:
        acts.setdefault(act.at, []).append(f"0 act {act.subject} {act.action} {act.object}\nok")
    ends = dict(zip(starts, count(1)))
    made: List[str] = []
    now = at = 0
    for tick in sorted({*acts, *ends, state.tick}):
        if tick > now:
            now = tick
            made.append(f"0 tick {tick}\nok")
        end = ends.get(tick, at)
        made += acts.get(tick, [])
        made += begins[at:end]
        at = end
    return made


def values(side: str, found: Dict[str, Row], defaults: Dict[str, str]) -> Iterator[str]:
    """What sets each value that isn't its attribute's default."""
    for name, row in found.items():
        for attribute, value in row.items():
            if value != defaults[f"{side}.{attribute}"]:
                yield f"0 set {side} {name} {attribute} {value}\nok"


def journal_of(payloads: List[bytes]) -> bytes:
    """The bytes of a journal of these records."""
    fronts = {length: b"\1" + length.to_bytes(4, "big") for length in set(map(len, payloads))}
    records = zip(map(fronts.__getitem__, map(len, payloads)), payloads)
    return b"".join([FRESH_MAGIC, *chain.from_iterable(records), b"\0"])


# ---- what comes of it


def differences(old: State, new: State, made: Plan) -> Iterator[str]:
    """Where a new journal's state isn't the old one's, closed and waiting sessions aside. Nothing where it is."""
    for what, is_same in (
        ("steps", new.entries == len(made.steps)), ("policy", new.policy in (None, made.last)), ("tick", new.tick == old.tick),
        ("variables", new.env == old.env), ("subjects", new.subjects == old.subjects), ("objects", new.objects == old.objects),
        ("acts", sorted(new.acts) == sorted(old.acts)),
        ("uses", new.lines == old.lines_of("accessing") and new.tried == len(made.numbers)),
    ):
        if not is_same:
            yield what
