"""The documents that are measured: what each is for, its sizes, and how it is made."""
import re
from typing import Callable, Dict, List, NamedTuple, Optional

# What a document may hold.
LINES = 262_144
BYTES = 4_194_304
POLICY_BYTES = 65_536

MAGIC = b"UCONJR02"


class Case(NamedTuple):
    """A document, and for `play` the journal that it is run over. The baseline knows no checkpoints: it gets the journal without them."""

    document: bytes
    journal: Optional[bytes] = None


class Workload(NamedTuple):
    """One kind of document. `size` is what `make` takes, in full; `small` is for a run of seconds."""

    name: str
    form: str
    size: int
    small: int
    make: Callable[[int], Case]
    says: str


class Draws:
    """Numbers that look drawn, the same in each run: a linear congruential generator modulo 2^64, of whose state the upper half counts."""

    def __init__(self, seed: int) -> None:
        self.state = seed

    def below(self, limit: int) -> int:
        self.state = (self.state * 6_364_136_223_846_793_005 + 1_442_695_040_888_963_407) % 2**64
        return (self.state >> 33) % limit


def document_of(policy: str, lines: List[str]) -> bytes:
    return (policy + "%%\n" + "".join(line + "\n" for line in lines)).encode()


def case_of(policy: str, lines: List[str]) -> Case:
    return Case(document_of(policy, lines))


MUSIC = """\
attr s credit : int 0..1000000 = 0;
attr s member : text = "none";
attr s bought : set = {};
attr o price : int 0..10000 = 5;
attr o plays : int 0..1000000 = 0;
env region : text = "eu";
right play {
  pre a funds: s.credit >= o.price;
  pre b terms: done accept;
  pre c area: env.region = "eu";
  on a good: s.member != "blocked";
  on b ads: every 30 click;
  before s.credit = s.credit - o.price;
  during s.credit = s.credit - 1;
  after_end o.plays = o.plays + 1;
  after_revoke o.plays = o.plays + 1;
}
"""

WATCHED = "attr s blocked : int 0..1 = 0;\nright watch { on a free: s.blocked = 0; }\n"


def decisions(size: int) -> Case:
    """Tries of drawn subjects on drawn objects, half of them permitted, and nothing that goes on being asked."""
    policy = (
        "attr s credit : int 0..1000 = 0;\nattr o price : int 0..1000 = 0;\n"
        "right play { pre a funds: s.credit >= o.price; }\n"
    )
    lines = ["client 0"]
    for i in range(200):
        lines += [f"subject u{i}", f"object v{i}", f"set s u{i} credit {i}", f"set o v{i} price {i}"]
    draws = Draws(7)
    for _ in range(size):
        subject, obj = draws.below(200), draws.below(200)
        lines.append(f"try u{subject} play v{obj}")
    return case_of(policy, lines)


def watchers(size: int) -> List[str]:
    return ["subject a", "subject b", "object x"] + ["try a watch x"] * size


def others(size: int) -> int:
    return size * 5 // 3


def untouched(size: int) -> Case:
    """Uses that watch one subject's attribute, and then more writes to another's."""
    return case_of(WATCHED, ["client 0"] + watchers(size) + ["set s b blocked 1"] * others(size))


def cascade(size: int) -> Case:
    """Uses that count themselves on one object, all revoked by one step, each revocation writing the count that all read."""
    policy = f"""\
attr o users : int 0..{size} = 0;
attr o most : int 0..{size} = {size};
right use {{
  on a cap: o.users <= o.most;
  before o.users = o.users + 1;
  after_end o.users = o.users - 1;
  after_revoke o.users = o.users - 1;
}}
"""
    return case_of(policy, ["client 0", "subject a", "object x"] + ["try a use x"] * size + ["set o x most 0"])


def variable(size: int) -> Case:
    """Uses that read one variable, which is then written fifty times and keeps them all true."""
    policy = "env level : int 0..9 = 1;\nright watch { on c open: env.level <= 5; }\n"
    writes = [f"env level {2 - i % 2}" for i in range(50)]
    return case_of(policy, ["client 0", "subject a", "object x"] + ["try a watch x"] * size + writes)


def deadlines(size: int) -> Case:
    """Uses under fifty rights that last for different times, and ticks by one until all are revoked."""
    rights = range(50)
    lasts = {right: 1500 + 37 * right for right in rights}
    policy = "".join(f"right r{right} {{ on c time: lasts {lasts[right]}; }}\n" for right in rights)
    rounds = size // len(rights)
    lines = ["client 0", "subject a", "object x"]
    for tick in range(rounds):
        lines += [f"tick {tick}"] + [f"try a r{right} x" for right in rights]
    lines += [f"tick {tick}" for tick in range(rounds, rounds + max(lasts.values()) + 1)]
    return case_of(policy, lines)


def pay_per_use(size: int) -> Case:
    """Eight clients that pay, click, listen and end, with top-ups and ticks between: every kind of predicate and update."""
    draws = Draws(7)
    lines = ["client 0"] + [f"subject u{i}" for i in range(200)] + [f"object v{i}" for i in range(200)]
    lines += [f"set s u{i} credit 400" for i in range(200)]
    recent: Dict[int, list] = {client: [] for client in range(1, 9)}
    made = tick = done = 0
    while done < size:
        client = 1 + draws.below(8)
        lines.append(f"client {client}")
        for _ in range(min(25, size - done)):
            done += 1
            kind = draws.below(100)
            if kind < 25 or not recent[client]:
                subject, obj = draws.below(200), draws.below(200)
                made += 1
                recent[client] = recent[client][-63:] + [(made, subject, obj)]
                lines.append(f"try u{subject} play v{obj}")
                continue
            session, subject, obj = recent[client][draws.below(len(recent[client]))]
            if kind < 45:
                lines.append(f"act u{subject} accept v{obj}")
            elif kind < 55:
                lines.append(f"act u{subject} click v{obj}")
            elif kind < 70:
                lines.append(f"again {session}")
            elif kind < 90:
                lines.append(f"beat {session}")
            else:
                lines.append(f"end {session}")
        if done < size and draws.below(3) == 0:
            tick += 1 + draws.below(3)
            lines += ["client 0", f"tick {tick}", f"set s u{draws.below(200)} credit 400"]
            done += 2
    return case_of(MUSIC, lines)


def rights(size: int) -> Case:
    """A policy of so many rights with every kind of predicate and update, and no script."""
    attributes = "".join(f"attr {side} count_{i} : int 0..1000000 = {i};\n" for side in "so" for i in range(15))
    attributes += 'attr s groups : set = {"guest"};\nattr o groups : set = {"guest", "staff"};\n'
    variables = "".join(f"env level_{i} : int 0..9 = 1;\n" for i in range(32))

    def right(i: int) -> str:
        a, b, c = f"count_{i % 15}", f"count_{(i + 1) % 15}", f"level_{i % 32}"
        return f"""\
right use_number_{i} {{
  pre a funds: s.{a} >= o.{b} * 3 + 7 and [size(s.groups) < size(o.groups) or "guest" in s.groups];
  pre b terms: done accept by "holder" on "contract";
  pre c hours: env.{c} >= 1 and env.{c} <= 5 or not env.level_0 = 9;
  on a cap: o.{a} <= 20 * (s.{b} + 1) and s.groups != o.groups;
  on b ads: every 30 click;
  on c time: lasts 5000 and env.{c} != 0;
  before s.{a} = s.{a} - o.{b};
  before o.groups = o.groups + "reader" - "guest";
  during s.{b} = s.{b} - (o.{a} + 1) * 2;
  after_end o.{b} = o.{b} - 1;
  after_revoke o.{b} = o.{b} - 1;
}}
"""

    return case_of(attributes + variables + "".join(right(i) for i in range(size)), ["client 0", "subject a"])


def durable(size: int) -> Case:
    """Steps over a new journal, each of them a change that is on the disk before it is answered."""
    lines = ["client 0"] + [f"subject u{i}" for i in range(20)] + [f"object v{i}" for i in range(20)]
    lines += [f"set s u{i} credit 100000" for i in range(20)]
    draws = Draws(7)
    session = 0
    while len(lines) <= size:
        subject, obj = draws.below(20), draws.below(20)
        session += 1
        lines += [f"act u{subject} accept v{obj}", f"try u{subject} play v{obj}", f"beat {session}", f"end {session}"]
    return case_of(MUSIC, lines[: size + 1])


def watched_steps(size: int) -> List[str]:
    """The payloads of the steps of `untouched`."""
    payloads = [f"0 {step}\nok" for step in ("subject a", "subject b", "object x")]
    payloads += [f"0 try a watch x\npermitted {session}" for session in range(1, size + 1)]
    return payloads + ["0 set s b blocked 1\nok"] * others(size)


def journal_of(payloads: List[str]) -> bytes:
    records = b"".join(b"\1" + len(payload).to_bytes(4, "big") + payload.encode() for payload in payloads)
    return MAGIC + records + b"\0"


def without_points(journal: bytes) -> bytes:
    """The journal without its checkpoints."""
    kept, at = [journal[:8]], 8
    while journal[at : at + 1] == b"\1":
        end = at + 5 + int.from_bytes(journal[at + 1 : at + 5], "big")
        if not journal.startswith(b"point ", at + 5):
            kept.append(journal[at:end])
        at = end
    return b"".join(kept) + journal[at:]


def opening(size: int) -> Case:
    """One step over a journal that holds the steps of `untouched`."""
    return Case(document_of(WATCHED, ["client 0", "subject c"]), journal_of([WATCHED] + watched_steps(size)))


def pointed(size: int) -> Case:
    """The same step over that journal with a checkpoint behind it, which has as many uses that go on."""
    steps = watched_steps(size)
    return Case(document_of(WATCHED, ["client 0", "subject c"]), journal_of([WATCHED] + steps + [point_of(steps, size)]))


def point_of(steps: List[str], uses: int) -> str:
    """The checkpoint behind steps of `watched_steps`."""
    lines = [f"point {len(steps)}", f"policy {len(WATCHED)}", WATCHED, "tick 0"]
    lines += ["subject a", "value blocked 0", "subject b", "value blocked 1", "object x"]
    lines += ["session 0 watch a x accessing 0"] * uses
    return "".join(line + "\n" for line in lines)


def written_steps(size: int) -> List[str]:
    """The payloads of as many steps, of which all but a few write one attribute."""
    return watched_steps(1)[:4] + ["0 set s b blocked 1\nok"] * (size - 1)


def written(size: int) -> Case:
    """One step over a journal of writes, behind which little is there."""
    return Case(document_of(WATCHED, ["client 0", "subject c"]), journal_of([WATCHED] + written_steps(size)))


def written_pointed(size: int) -> Case:
    """The same step over that journal with a checkpoint behind it."""
    steps = written_steps(size)
    return Case(document_of(WATCHED, ["client 0", "subject c"]), journal_of([WATCHED] + steps + [point_of(steps, 1)]))


def nothing(_size: int) -> Case:
    return Case(b"%%\n")


# `generated` and `gen` run the generator's document, which the baseline makes.
WORKLOADS = [
    Workload("empty", "trial", 0, 0, nothing, "starting and ending"),
    Workload("decisions", "trial", 120_000, 3_000, decisions, "reading a line, deciding once, and writing the reply"),
    Workload("generated", "trial", 100_000, 2_000, nothing, "four clients on five objects with a cap, credit and time; most uses are revoked"),
    Workload("gen", "gen", 100_000, 2_000, nothing, "the same without its input and its replies"),
    Workload("pay_per_use", "trial", 200_000, 2_000, pay_per_use, "a service: every kind of predicate and update, few uses that touch each other"),
    Workload("untouched", "trial", 60_000, 300, untouched, "writes that touch no use that goes on"),
    Workload("cascade", "trial", 60_000, 150, cascade, "one step that revokes all uses, each of which reads what each revocation writes"),
    Workload("variable", "trial", 20_000, 300, variable, "writes that touch every use and revoke none"),
    Workload("deadlines", "trial", 50_000, 500, deadlines, "time passing over uses that last"),
    Workload("reading", "check", 230_000, 5_000, decisions, "reading a script to the end, without running it"),
    Workload("rights", "check", 60, 6, rights, "reading a large policy and checking its types"),
    Workload("durable", "play", 2_000, 50, durable, "steps that are on the disk before they are answered"),
    Workload("opening", "play", 60_000, 200, opening, "reading a journal and running its steps again"),
    Workload("pointed", "play", 60_000, 200, pointed, "reading that journal with a checkpoint behind its steps; the baseline runs them"),
    Workload("written", "play", 160_000, 1_000, written, "reading a journal of as many steps, which leave little, and running them again"),
    Workload("written_pointed", "play", 160_000, 1_000, written_pointed, "reading that one with a checkpoint; the baseline runs the steps"),
]


def check(name: str, case: Case) -> None:
    """That a document isn't refused for its size, which would measure the refusal."""
    policy, _, script = case.document.partition(b"%%\n")
    lines = [line for line in script.split(b"\n") if line and not re.match(rb"#|client ", line)]
    assert len(case.document) <= BYTES and len(policy) <= POLICY_BYTES and len(lines) <= LINES, (name, len(case.document), len(policy), len(lines))
