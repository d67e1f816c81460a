"""What whoever asked is told of a reply: one JSON object and a status. A user is told of its own sessions alone."""
from collections.abc import Callable
from dataclasses import dataclass

from front.protocol import Reply
from front.sessions import BY_OUTCOME, Session, State

# The statuses of refusals. Each changed nothing.
REFUSED = {
    "not admin": 403, "not yours": 404, "no right": 404, "no subject": 404, "no object": 404, "no attribute": 404, "no variable": 404,
    "no act": 404, "no session": 404, "not accessing": 409, "not requesting": 409, "already there": 409, "tick back": 409,
    "kind changed": 409, "bad value": 422, "full subjects": 507, "full objects": 507, "full acts": 507, "full sessions": 507, "full accessing": 507,
}
# Another subject's session is as one that isn't there.
NO_SESSION = "no session"


@dataclass(frozen=True, slots=True)
class Answer:
    """A status and a JSON object. `permits` is the use that this answer lets go on."""

    status: int
    body: dict[str, object]
    permits: int | None = None


def refusal(text: str, status: int) -> Answer:
    return Answer(status, {"error": text})


def of_reply(reply: Reply, number: int | None, row: Callable[[int], dict[str, object] | None]) -> Answer:
    """The answer to a command. `number` is the session that it named, and a `try` names the one that it made. `row` is what may be told of
    a session, and None where nothing may.

    The state is the one behind the whole step: a use that the same step revoked isn't accessing."""
    if not reply.outcome:
        return refusal(reply.text, REFUSED.get(reply.text, 502))
    body: dict[str, object] = {"place": reply.place, "outcome": reply.outcome}
    named = reply.session if number is None else number
    if named is not None:
        body |= of_session(reply, named)
    told = [(it, row(it.session)) for it in reply.revocations]
    body["revoked"] = [{**about, "session": it.session, "label": it.label} for it, about in told if about is not None]
    state = body.get("state")
    return Answer(STATUS.get(str(state), 200), body, named if state == State.accessing.name else None)


# Only a use that goes on is answered 200, so that who reads nothing but the status lets nobody in.
STATUS = {State.requesting.name: 202, State.denied.name: 403, State.revoked.name: 403}


def of_session(reply: Reply, number: int) -> dict[str, object]:
    """A session as it is when the step is done."""
    label = next((it.label for it in reply.revocations if it.session == number), None)
    state = State.revoked if label is not None else BY_OUTCOME.get(reply.outcome, State.accessing)
    return {"session": number, "state": state.name, "accessing": state is State.accessing, "label": label or reply.label}


def own_row(session: Session | None, subject: str) -> dict[str, object] | None:
    """What a user is told of a session in a cascade: nothing where it is another's."""
    return {"right": session.right, "object": session.object} if session and session.subject == subject else None


def any_row(session: Session | None) -> dict[str, object]:
    """What an administrator is told of any."""
    return {"subject": session.subject, "right": session.right, "object": session.object} if session else {}


def explanation(lines: list[str], subject: str | None) -> list[str]:
    """The lines of `explain`, for a subject without what another one did and when."""

    def is_anothers(line: str) -> bool:
        words = line.split()
        return subject is not None and words[:1] == ["act"] and words[1:2] != [subject]

    return ["  act of another subject" if is_anothers(it) else it for it in lines]
