"""The server: who is let in, what is served, and what is done at times, put together and taken down."""
import asyncio
import contextlib
import logging
import pathlib
import signal
import socket
import struct
import time
from collections.abc import Awaitable, Callable, Coroutine, Iterator
from typing import Any

from aiohttp import web

from front import metrics
from front.admin import AdminRoutes
from front.answers import refusal
from front.asking import HEADERS, Asking, Handler, Refused, json_response
from front.book import Book
from front.config import Config
from front.events import Streams
from front.limits import Connections, Rates
from front.monitor import Failed, NoAnswer, Unavailable
from front.protocol import Unspeakable
from front.readings import Pointless
from front.routes import UserRoutes
from front.users import User

log = logging.getLogger("front")
access = logging.getLogger("front.access")

CONSOLE = pathlib.Path(__file__).resolve().parent / "console"
KINDS = {".html": "text/html", ".css": "text/css", ".js": "text/javascript", ".svg": "image/svg+xml"}
# The page asks nobody but the one that served it.
PAGE = {
    "Content-Security-Policy": "default-src 'none'; script-src 'self'; style-src 'self'; connect-src 'self'; img-src 'self'; base-uri 'none';"
    " form-action 'none'; frame-ancestors 'none'",
    "Referrer-Policy": "no-referrer", "X-Content-Type-Options": "nosniff", "Cache-Control": "no-cache",
}
# How long streams and requests have to end, in seconds.
ENDING = 5.0
NOT_LET_IN = "no such credentials"


class Front:
    """All that is served."""

    def __init__(self, config: Config, book: Book) -> None:
        self.config, self.book = config, book
        self.requests = metrics.Requests()
        self.connections = Connections(config.limits)
        self.rates = Rates(config.limits.rate, config.limits.burst)
        self.refusals = Rates(config.limits.refusals / 60, config.limits.refusals)
        self.streams = Streams(book.history, book.sessions, config.limits.streams, book.is_let_in)
        self._ending = asyncio.Event()

    # ---- what is served

    def application(self) -> web.Application:
        asking = Asking(self.book)
        app = web.Application(middlewares=[self.watched], client_max_size=self.config.limits.policy_body)
        app.add_routes(UserRoutes(asking, self.streams).table())
        app.add_routes(AdminRoutes(asking).table())
        app.add_routes([web.get("/metrics", self.metrics), web.get("/healthz", self.health)])
        for file in sorted(CONSOLE.iterdir()):
            app.router.add_get("/" if file.name == "index.html" else f"/console/{file.name}", page(file))
        return app

    async def health(self, request: web.Request) -> web.StreamResponse:
        is_ready = self.book.monitor.is_ready
        return web.json_response({"ready": is_ready}, status=200 if is_ready else 503, headers=HEADERS)

    async def metrics(self, request: web.Request) -> web.StreamResponse:
        monitor, figures = self.book.monitor, self.book.monitor.figures
        single = metrics.single
        text = (
            single("ucon_front_up", "gauge", "Whether the monitor is ready.", int(monitor.is_ready))
            + single("ucon_steps", "counter", "Steps of the journal.", self.book.history.steps)
            + single("ucon_sessions", "gauge", "Sessions tried, of 1048576 in a journal's life.", len(self.book.sessions))
            + single("ucon_using", "gauge", "Uses that go on.", len(self.book.sessions.using()))
            + single("ucon_front_monitor_starts_total", "counter", "Starts of the monitor.", figures.starts)
            + single("ucon_front_monitor_crashes_total", "counter", "Ends of the monitor that weren't asked for.", figures.crashes)
            + single("ucon_front_lines_total", "counter", "Lines sent to the monitor.", figures.lines)
            + single("ucon_front_lines_recovered_total", "counter", "Replies found in the journal behind a crash.", figures.recovered)
            + single("ucon_front_lines_sent_again_total", "counter", "Lines sent again behind a crash.", figures.sent_again)
            + single("ucon_front_lines_waiting", "gauge", "Lines that wait for a reply.", monitor.waits)
            + single("ucon_front_connections", "gauge", "Open connections.", len(self.connections))
            + single("ucon_front_streams", "gauge", "Open streams of events.", len(self.streams))
            + metrics.histogram("ucon_front_monitor_seconds", "Time of a line, over a crash too.", figures.seconds)
            + metrics.of_requests(self.requests)
        )
        return web.Response(text=text, content_type="text/plain", headers=HEADERS)

    # ---- around each request

    @web.middleware
    async def watched(self, request: web.Request, handler: Handler) -> web.StreamResponse:
        """Guards the connection, answers each failure by one JSON object, counts, and logs."""
        guarded = self.connections.of(request.transport)
        begun = time.perf_counter()
        if guarded:
            guarded.begin()
        response: web.StreamResponse | None = None
        try:
            response = await self._answered(request, handler)
            self._allow_origin(request, response)
            return response
        finally:
            if guarded:
                guarded.end()
            self._note(request, response, time.perf_counter() - begun)

    async def _answered(self, request: web.Request, handler: Handler) -> web.StreamResponse:
        try:
            self._let_in(request)
            if request.method == "OPTIONS" and self._is_allowed_origin(request):
                return web.Response(status=204, headers=HEADERS)
            return await handler(request)
        except Refused as why:
            headers = {"WWW-Authenticate": "Bearer"} if why.answer.status == 401 else {"Retry-After": "1"} if why.answer.status == 429 else {}
            return json_response(why.answer, **headers)
        except Unspeakable as why:
            return json_response(refusal(str(why), 400))
        except Pointless as why:
            return json_response(refusal(str(why), 409))
        except Unavailable as why:
            return json_response(refusal(f"the monitor can't answer now: {why}", 503), **{"Retry-After": "1"})
        except NoAnswer as why:
            return json_response(refusal(str(why), 504))
        except web.HTTPException as why:
            return json_response(refusal(why.reason.lower(), why.status), **({"Allow": why.headers["Allow"]} if "Allow" in why.headers else {}))
        except (asyncio.TimeoutError, ConnectionError):
            return json_response(refusal("the request took too long", 408))
        except Exception:
            log.exception("a request failed")
            return json_response(refusal("the front end failed at this request", 500))

    def _let_in(self, request: web.Request) -> None:
        """Who asks, by its credentials alone. Pages, health, and metrics where they are open, are for everybody."""
        path = request.path
        is_open = path in ("/", "/healthz") or path.startswith("/console/") or (path == "/metrics" and self.config.has_open_metrics)
        if is_open or request.method == "OPTIONS":
            return
        user = self._user_of(request)
        if user is None:
            if not self.refusals.take(request.remote or "socket"):
                raise Refused(429, "too many refused credentials from this address")
            raise Refused(401, NOT_LET_IN)
        request["user"] = user
        if not self.rates.take(user.name):
            raise Refused(429, "too many requests of this user")
        if path.startswith("/admin/") and not user.is_admin:
            raise Refused(403, "this is for administrators")
        if path == "/metrics" and user.role not in ("metrics", "admin"):
            raise Refused(403, "this is for the role `metrics`")

    def _user_of(self, request: web.Request) -> User | None:
        """By its token; of the Unix socket's peers also by their uid."""
        given: list[str] = request.headers.getall("Authorization", [])
        if given:
            scheme, _, token = given[0].partition(" ")
            return self.book.users.of_token(token) if len(given) == 1 and scheme.lower() == "bearer" else None
        found = request.transport.get_extra_info("socket") if request.transport else None
        if found is None or found.family != socket.AF_UNIX:
            return None
        _, uid, _ = struct.unpack("3i", found.getsockopt(socket.SOL_SOCKET, socket.SO_PEERCRED, struct.calcsize("3i")))
        return self.book.users.of_uid(uid)

    def _is_allowed_origin(self, request: web.Request) -> bool:
        return request.headers.get("Origin", "") in self.config.cors

    def _allow_origin(self, request: web.Request, response: web.StreamResponse) -> None:
        if self.config.cors and self._is_allowed_origin(request) and not response.prepared:
            response.headers["Access-Control-Allow-Origin"] = request.headers["Origin"]
            response.headers["Vary"] = "Origin"
            response.headers["Access-Control-Allow-Headers"] = "Authorization, Content-Type, Idempotency-Key, Last-Event-ID"
            response.headers["Access-Control-Allow-Methods"] = "GET, POST"

    def _note(self, request: web.Request, response: web.StreamResponse | None, seconds: float) -> None:
        status = 499 if response is None else response.status
        resource = request.match_info.route.resource
        route = resource.canonical if resource else "none"
        self.requests.answered[f"{request.method if request.method in METHODS else 'OTHER'} {route}", status] += 1
        self.requests.seconds.note(seconds)
        if status in REFUSALS:
            self.requests.refused[REFUSALS[status]] += 1
        user: User | None = request.get("user")
        path = request.rel_url.raw_path[:200].encode("ascii", "backslashreplace").decode()
        size = 0 if response is None else response.body_length
        who = request.remote or "socket", user.name if user else "-"
        access.info('%s %s "%s %s" %d %d %.1fms', *who, request.method[:10], path, status, size, 1000 * seconds)

    # ---- its life

    async def run(self) -> None:
        """Serves until it is ended, or the monitor can't go on. Fails by `Failed`. Nothing is begun where it can't listen."""
        app = self.application()
        runner = web.AppRunner(app, access_log=None, handle_signals=False, keepalive_timeout=self.config.limits.idle)
        tasks: list[asyncio.Task[None]] = []
        servers: list[asyncio.Server] = []
        running: asyncio.Task[None] | None = None
        try:
            await runner.setup()
            await self._bind(runner, servers)
            await self.book.begin()
            running = asyncio.create_task(self.book.monitor.run())
            await self._settle()
            await self._listen(servers)
            tasks = [asyncio.create_task(it) for it in self._at_times()]
            self._hear_signals()
            ending = asyncio.create_task(self._ending.wait())
            await asyncio.wait([running, ending], return_when=asyncio.FIRST_COMPLETED)
            ending.cancel()
        finally:
            await self._take_down(runner, servers, tasks, running)
        if running:
            await running

    async def _settle(self) -> None:
        try:
            await self.book.settle()
        except (Unavailable, NoAnswer, Unspeakable) as why:
            raise Failed(1, f"the monitor began, and then: {why}") from None

    async def _bind(self, runner: web.AppRunner, servers: list[asyncio.Server]) -> None:
        """Takes the socket and the port, at which nobody is heard yet."""
        loop = asyncio.get_running_loop()
        assert runner.server
        factory = self.connections.guard(runner.server)
        with listening():
            if self.config.socket:
                remove_socket(self.config.socket)
                servers.append(await loop.create_unix_server(factory, str(self.config.socket), backlog=512, start_serving=False))
            if self.config.has_port:
                host, port = self.config.host, self.config.port
                servers.append(await loop.create_server(factory, host, port, backlog=512, reuse_address=True, start_serving=False))

    async def _listen(self, servers: list[asyncio.Server]) -> None:
        for server in servers:
            with listening():
                await server.start_serving()
            for it in server.sockets:
                if it.family == socket.AF_UNIX:
                    log.warning("listening on %s", self.config.socket)
                    continue
                host, port = it.getsockname()[:2]
                where = f"[{host}]" if ":" in host else host
                log.warning("listening on http://%s:%d, the journal has %d steps", where, port, self.book.history.steps)

    def _hear_signals(self) -> None:
        loop = asyncio.get_running_loop()
        for number in (signal.SIGTERM, signal.SIGINT):
            loop.add_signal_handler(number, self._ending.set)
        loop.add_signal_handler(signal.SIGHUP, lambda: loop.create_task(self.book.read_users_again()))

    def _at_times(self) -> list[Coroutine[Any, Any, None]]:
        tasks = [self.connections.look_over(), every(1.0, self.book.end_unclaimed), every(self.config.head_seconds, self.book.monitor.tell_head)]
        if self.config.tick_seconds:
            tasks.append(every(self.config.tick_seconds, self.book.move_tick))
        return tasks

    async def _take_down(
        self, runner: web.AppRunner, servers: list[asyncio.Server], tasks: list["asyncio.Task[None]"], running: "asyncio.Task[None] | None"
    ) -> None:
        for server in servers:
            server.close()
        self.streams.close()
        for task in tasks:
            task.cancel()
        with contextlib.suppress(asyncio.TimeoutError):
            await asyncio.wait_for(runner.cleanup(), ENDING)
        await self.book.monitor.close()
        if running:
            await asyncio.wait([running], timeout=ENDING)
        if self.config.socket and servers:
            remove_socket(self.config.socket)


# What is counted as refused before a route has decided anything.
REFUSALS = {401: "credentials", 413: "body", 429: "rate"}
METHODS = ("GET", "POST", "OPTIONS", "HEAD", "PUT", "DELETE", "PATCH")


def page(file: pathlib.Path) -> Callable[[web.Request], Awaitable[web.StreamResponse]]:
    """Serves a file of the console, read once."""
    raw, kind = file.read_bytes(), KINDS[file.suffix]

    async def handler(request: web.Request) -> web.StreamResponse:
        return web.Response(body=raw, content_type=kind, charset="utf-8", headers=PAGE)

    return handler


@contextlib.contextmanager
def listening() -> Iterator[None]:
    try:
        yield
    except OSError as why:
        raise Failed(1, f"can't listen: {why.strerror or why}") from None


def remove_socket(path: pathlib.Path) -> None:
    """Takes a socket away that nobody serves any more. Another file stays, and then listening fails."""
    if path.is_socket():
        path.unlink(missing_ok=True)


async def every(seconds: float, call: Callable[[], Awaitable[None]]) -> None:
    """Calls at once, and again behind each so many seconds, whatever becomes of a call, until it is cancelled."""
    while True:
        try:
            await call()
        except (Unavailable, NoAnswer) as why:
            log.warning("%s", why)
        except Exception:
            log.exception("a call that is made at times failed")
        await asyncio.sleep(seconds)
