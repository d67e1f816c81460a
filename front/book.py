"""What the front end knows and who may ask for what: the monitor, its history and sessions, and the users, with the calls that routes make."""
import asyncio
import logging
import time

from front.answers import NO_SESSION, Answer, any_row, of_reply, own_row, refusal
from front.config import Config
from front.history import History, Step
from front.monitor import Monitor, NoAnswer, Unavailable
from front.protocol import Line, Reply
from front.readings import Readings
from front.sessions import Session, Sessions
from front.users import BadUsers, User, Users, read_users
from launcher.amending import declared
from launcher.lock import Lock

log = logging.getLogger("front")


class Book:
    """The monitor with what the front end keeps beside it."""

    def __init__(self, config: Config, users: Users, words: list[str], policy: bytes | None, held: Lock) -> None:
        self.config, self.users = config, users
        self.history, self.sessions = History(config.journal), Sessions()
        self.monitor = Monitor(
            words, policy, config.journal, held, self.history, self._take, self._unheard,
            config.limits.waiting, config.restarts, config.accepts_loss,
        )
        self.readings = Readings(lambda text: self.ask(None, text))
        # The attributes of subjects that the policy in force declares. None where it has to be asked.
        self._attributes: list[str] | None = None

    # ---- what the monitor says

    def _take(self, step: Step) -> None:
        self.history.add(step)
        self.sessions.take(step)
        if step.command.startswith("amend "):
            self._attributes = None

    def _unheard(self, reply: Reply) -> None:
        """Nobody waits for this reply any more: a use that it permits is claimed, or ended."""
        if reply.outcome == "permitted" and reply.session is not None:
            self.put_up([reply.session])

    def put_up(self, numbers: list[int]) -> None:
        if self.config.claim_seconds:
            self.sessions.put_up(numbers, time.monotonic() + self.config.claim_seconds)

    # ---- asking

    async def ask(self, client: int | None, text: str, seconds: float | None = None) -> Reply:
        return await self.monitor.ask(Line(client, text), seconds or self.config.limits.answer)

    async def command(self, user: User, text: str, number: int | None = None, seconds: float | None = None) -> Answer:
        """A user's command under its number, or that of the session which it names."""
        client = user.client
        if number is not None:
            session = self.sessions.of(user.subject, number)
            if session is None:
                return refusal(NO_SESSION, 404)
            client = session.client
            self.sessions.claim(number)
        reply = await self.ask(client, text, seconds)
        return of_reply(reply, number, lambda it: own_row(self.sessions.get(it), user.subject))

    async def administer(self, text: str, seconds: float | None = None) -> Answer:
        """A command of client 0."""
        reply = await self.ask(0, text, seconds)
        return of_reply(reply, None, lambda it: any_row(self.sessions.get(it)))

    async def attributes(self, subject: str) -> dict[str, str]:
        """A subject's attributes, each value as the monitor spells it."""
        if self._attributes is None:
            kinds = declared((await self.readings.policy()).encode())
            self._attributes = [it.removeprefix("s.") for it in kinds if it.startswith("s.")]
        names = self._attributes
        replies = await asyncio.gather(*(self.ask(0, f"value s {subject} {it}") for it in names))
        return {name: it.text.removeprefix("value ") for name, it in zip(names, replies) if it.text.startswith("value ")}

    # ---- beginning, and what is done at times

    async def begin(self) -> None:
        """Starts the monitor, makes the users' subjects, and puts up the uses that go on."""
        await self.monitor.open()

    async def settle(self) -> None:
        """Behind the first start: the uses that the monitor says go on are claimed, or ended."""
        _, using = await self.readings.using()
        if set(using) != set(self.sessions.using()):
            log.error("the monitor says that %d uses go on, and the journal's steps say %d", len(using), len(self.sessions.using()))
        self.put_up(list(using))
        await self.make_subjects()

    async def make_subjects(self) -> None:
        for subject in self.users.subjects():
            reply = await self.ask(0, f"subject {subject}")
            if reply.text not in ("ok", "already there"):
                log.warning("subject %s isn't made: %s", subject, reply.text)

    async def read_users_again(self) -> None:
        """Who is let in from now on. A file that can't be read leaves all as it was."""
        try:
            users = read_users(self.config.users)
        except BadUsers as why:
            log.error("the users stay as they are: %s", why)
            return
        self.users = users
        log.warning("%d users are let in", len(users))
        try:
            await self.make_subjects()
        except (Unavailable, NoAnswer) as why:
            log.error("not all subjects are made: %s", why)

    def is_let_in(self, user: User) -> bool:
        return self.users.by_name.get(user.name) == user

    async def end_unclaimed(self) -> None:
        """Ends the uses that nobody claimed in time, each by its own client's number."""
        for session in self.sessions.overdue(time.monotonic()):
            await self._end_use(session)

    async def _end_use(self, session: Session) -> None:
        self.sessions.claim(session.number)
        try:
            reply = await self.ask(session.client, f"end {session.number}")
        except (Unavailable, NoAnswer):
            self.put_up([session.number])
            raise
        log.warning("use %d of %s wasn't claimed: %s", session.number, session.subject, reply.text)

    async def move_tick(self) -> None:
        """The tick is the Unix time divided by the seconds of a tick, so that it goes on over a restart."""
        reply = await self.ask(0, f"tick {int(time.time()) // self.config.tick_seconds}")
        if reply.text != "tick back" and not reply.outcome:
            log.warning("the tick isn't moved: %s", reply.text)
