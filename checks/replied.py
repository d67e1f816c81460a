"""What is there behind a history, by its commands and their replies alone: the tree that `report` has to print as JSON."""
import re
from typing import Any, Dict, List, Tuple, Union

Value = Union[int, str, List[str]]
CHANGES = ("ok", "permitted", "denied", "waiting", "ended")
STATES = {"permitted": "accessing", "denied": "denied", "waiting": "requesting", "ended": "ended", "revoked": "revoked"}
OF_SESSION = re.compile(f"({'|'.join(STATES)}) ([0-9]+)")
DECLARED = re.compile(r"(attr s|attr o|env) ([a-z_0-9]+) *:[^=;]*= *([^;]*);")


def value_of(text: str) -> Value:
    if text.startswith("{"):
        return re.findall('"([^"]*)"', text)
    return text[1:-1] if text.startswith('"') else int(text)


class Replied:
    """No reply yet, under a policy of this text."""

    def __init__(self, policy: str) -> None:
        self.entries, self.tick = 0, 0
        self.env: Dict[str, Value] = {}
        self.sides: Dict[str, Dict[str, Dict[str, Value]]] = {"s": {}, "o": {}}
        self.acts: Dict[Tuple[str, ...], int] = {}
        self.sessions: List[Dict[str, Any]] = []
        self.declare(policy)

    def declare(self, policy: str) -> None:
        """Variables that stay keep their values."""
        declared = DECLARED.findall(policy)
        self.attributes = {side: [name for kind, name, _ in declared if kind == f"attr {side}"] for side in self.sides}
        self.env = {name: self.env.get(name, value_of(text)) for kind, name, text in declared if kind == "env"}

    def take(self, client: int, command: str, reply: str) -> None:
        word, _, rest = command.partition(" ")
        names, head = tuple(rest.split(" ")), reply.partition(" ")[0]
        if head not in CHANGES:
            return
        self.entries += 1
        if word in ("subject", "object"):
            self.sides[word[0]][rest] = {}
        elif word == "env":
            self.env[names[0]] = value_of(rest.partition(" ")[2])
        elif word == "tick":
            self.tick = int(rest)
        elif word == "act":
            self.acts[names] = self.tick
        elif word == "amend":
            self.declare(rest)
        elif word == "try":
            number = len(self.sessions) + 1
            self.sessions.append({"caller": client, "number": number, "object": names[2], "right": names[1], "start": 0, "subject": names[0]})
        for change, number in OF_SESSION.findall(reply):
            session = self.sessions[int(number) - 1]
            session["state"] = STATES[change]
            session["start"] = self.tick if change == "permitted" else session["start"]

    def questions(self) -> List[str]:
        """What to ask, since a reply doesn't tell the values that it leaves."""
        return [f"value {side} {name} {attr}" for side, names in self.sides.items() for name in names for attr in self.attributes[side]]

    def hear(self, question: str, reply: str) -> None:
        _, side, name, attr = question.split(" ")
        self.sides[side][name][attr] = value_of(reply.removeprefix("value "))

    def tree(self) -> Dict[str, Any]:
        acts = [{"action": action, "at": at, "object": it, "subject": subject} for (subject, action, it), at in self.acts.items()]
        return {
            "acts": acts, "entries": self.entries, "env": self.env, "objects": self.sides["o"], "sessions": self.sessions,
            "subjects": self.sides["s"], "tick": self.tick,
        }
