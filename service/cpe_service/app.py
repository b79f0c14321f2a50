"""The server: it checks clients, reads their requests, and answers from the database and through its processes. It
decides no verdict itself."""
from __future__ import annotations

import asyncio
import contextlib
import http
import json
import os
import time
from collections import Counter
from collections.abc import AsyncIterator, Callable, Iterable, Mapping, Sequence
from dataclasses import dataclass, field
from datetime import datetime, timezone
from pathlib import Path
from typing import Any

from cpe_recipes.console import Fatal
from cpe_recipes.feeds import Json
from cpe_recipes.program import Program
from starlette.applications import Starlette
from starlette.concurrency import run_in_threadpool
from starlette.exceptions import HTTPException
from starlette.requests import Request
from starlette.responses import JSONResponse, RedirectResponse, Response, StreamingResponse
from starlette.routing import Route as Address

from . import entries, name_forms, pages, queries, samples
from .database import connect, write_transaction
from .message_list import strip_paths
from .processes import Keeper, ProcessEnded, Worker
from .queries import time_text
from .request_rules import Problem, Rates, Room, body_of, read_path, read_query
from .routes import ROUTES, Route, openapi
from .texts import whole
from .tokens import ANYONE, Client, NoTokens, Tokens

VERSION = "0.1.0"
_DAY = 24 * 3600
_EVENTS = 200
# How many clients may listen to /events, how often one client may, and after how many seconds without a change a
# comment is sent.
_MOST_LISTENERS, _MOST_OF_CLIENT, _PAUSE = 200, 100, 15
# How many certificates may be requested from a worker at once.
_MOST_ASKED = 4
_BOUNDS = (0.01, 0.05, 0.1, 0.5, 1, 2, 5, 10)
_SECURITY = {
    "X-Content-Type-Options": "nosniff",
    "Referrer-Policy": "no-referrer",
    "Cache-Control": "no-store",
    "Content-Security-Policy": pages.POLICY,
}


@dataclass(frozen=True)
class Settings:
    """The settings of the service: its data folder, the number of workers, its limits, and how long it keeps
    changes."""

    folder: Path
    workers: int = 2
    most_list: int = 32 << 20
    most_feed: int = 128 << 20
    seconds: float = 60
    wait: float = 20
    rate: float = 100
    days: int = 365
    hosts: tuple[str, ...] = ()
    has_samples: bool = False


@dataclass
class Numbers:
    """The counters of the server, for /metrics."""

    requests: Counter[tuple[str, int]] = field(default_factory=Counter)
    below: Counter[tuple[str, float]] = field(default_factory=Counter)
    seconds: Counter[str] = field(default_factory=Counter)

    def add(self, name: str, status: int, seconds: float) -> None:
        """Adds a request."""
        self.requests[name, status] += 1
        self.seconds[name] += seconds
        for bound in _BOUNDS:
            self.below[name, bound] += seconds <= bound

    def lines(self) -> list[str]:
        """The lines of these numbers."""
        found = [
            "# HELP cpe_requests_total Requests, by what answered them and the status.",
            "# TYPE cpe_requests_total counter",
        ]
        found += [
            f'cpe_requests_total{{route="{name}",status="{status}"}} {count}'
            for (name, status), count in sorted(self.requests.items())
        ]
        found += ["# HELP cpe_request_seconds How long requests took.", "# TYPE cpe_request_seconds histogram"]
        for name in sorted(self.seconds):
            count = sum(number for (other, _), number in self.requests.items() if other == name)
            found += [
                f'cpe_request_seconds_bucket{{route="{name}",le="{bound:g}"}} {self.below[name, bound]}'
                for bound in _BOUNDS
            ]
            found.append(f'cpe_request_seconds_bucket{{route="{name}",le="+Inf"}} {count}')
            found += [
                f'cpe_request_seconds_sum{{route="{name}"}} {self.seconds[name]:.6f}',
                f'cpe_request_seconds_count{{route="{name}"}} {count}',
            ]
        return found


class Answer(JSONResponse):
    """An answer in JSON."""

    def render(self, content: Json) -> bytes:
        # (an answer has names of components, which may contain half a surrogate pair)
        return whole(json.dumps(content, ensure_ascii=False, allow_nan=False, separators=(",", ":"))).encode()


class Service:
    """The service behind the addresses."""

    def __init__(self, settings: Settings) -> None:
        self.settings, self.tokens, self.numbers = settings, Tokens(settings.folder), Numbers()
        self._program = Program()
        self._lists, self._feeds = Keeper(settings.folder, "lists"), Keeper(settings.folder, "feeds")
        self._workers = [
            Worker(settings.folder, shard, settings.workers, self._notify) for shard in range(settings.workers)
        ]
        self._rates = Rates(settings.rate, 2 * settings.rate)
        self._changed = asyncio.Event()
        # (the lists for whose verdicts clients wait, and whether anything happened since these were last checked)
        self._unsettled: dict[asyncio.Future[None], tuple[str, int]] = {}
        self._is_new, self._looking = False, None
        self._room = Room(4 * settings.most_feed)
        self._listeners: Counter[str] = Counter()
        self._tokens_fault = ""
        self._is_ending = False
        self._readers: list[Any] = []
        self._pruning: asyncio.Task[None] | None = None

    async def start(self) -> None:
        """Starts the workers."""
        for worker in self._workers:
            worker.start()
        self._pruning = asyncio.get_running_loop().create_task(self._prune())
        if self.settings.has_samples and not (await self.ask(queries.machines, "", "", 1, 0))[1]:
            await self._give_samples()

    async def _give_samples(self) -> None:
        """Sends the samples of the recipes to the keepers, as a client would."""
        for path in samples.feeds():
            await self._answer(
                self._feeds, {"do": "feed", "name": "", "is_whole": False, "client": "samples"}, path.read_bytes()
            )
        for path in samples.lists():
            await self._answer(
                self._lists, {"do": "put", "name": path.name.split(".")[0], "client": "samples"}, path.read_bytes()
            )

    async def end(self) -> None:
        """Ends all processes."""
        self.stop()
        if self._pruning is not None:
            self._pruning.cancel()
        for process in (*self._workers, self._lists, self._feeds):
            await process.end()

    def stop(self) -> None:
        """Ends the open answers of /events."""
        self._is_ending = True
        self._notify()

    def _notify(self) -> None:
        self._changed.set()
        self._changed = asyncio.Event()
        self._look()

    def _wake(self) -> None:
        for worker in self._workers:
            worker.wake()

    async def _prune(self) -> None:
        """Once a day removes the changes that are too old."""
        while True:
            with contextlib.suppress(Exception):
                await run_in_threadpool(self._remove_old_changes)
            await asyncio.sleep(_DAY)

    def _remove_old_changes(self) -> None:
        with contextlib.closing(connect(self.settings.folder)) as database, write_transaction(database):
            database.execute("DELETE FROM history WHERE at < ?", (time.time() - self.settings.days * _DAY,))

    async def ask(self, question: Callable, *values: Json) -> Any:
        """The answer of the database to a question."""
        return await run_in_threadpool(self._query, question, values)

    def _query(self, question: Callable, values: Sequence[Json]) -> Any:
        # (only one thread at a time may use a connection, and another thread may have taken the last one meanwhile)
        try:
            database = self._readers.pop()
        except IndexError:
            database = connect(self.settings.folder, is_reader=True)
        try:
            found = question(database, *values)
            return list(found) if hasattr(found, "__next__") else found
        finally:
            self._readers.append(database)

    # Who may ask.

    def let_in(self, request: Request, is_writing: bool) -> Client:
        """The client of a request. Problem if it may not send the request."""
        self._check_origin(request)
        try:
            self.tokens.read()
        except NoTokens as fault:
            # (the reason is only for the log, once, because this client has no valid token)
            if self._tokens_fault != str(fault):
                self._tokens_fault = str(fault)
                print(f"cpe_service: {fault}", flush=True)
            raise Problem(503, "the tokens can not be read") from fault
        client = self.tokens.client(request.headers.get("authorization", "")) if self.tokens.are_any() else ANYONE
        self._rates.take(_who(client, request), time.monotonic())
        if client is None:
            raise Problem(
                401,
                "a token is needed: Authorization: Bearer TOKEN",
                {"WWW-Authenticate": 'Basic realm="cpe", charset="UTF-8"'},
            )
        if is_writing and not client.may_write:
            raise Problem(403, f"the token of {client.name} may only read")
        return client

    def _check_origin(self, request: Request) -> None:
        """Checks that the request is meant for this server, and was not sent by a page of another server."""
        host = request.headers.get("host", "").lower()
        name = host if host.endswith("]") or ":" not in host else host.rpartition(":")[0]
        if self.settings.hosts and name not in self.settings.hosts:
            raise Problem(421, "this server isn't called so; --host-name gives its names")
        origin = request.headers.get("origin")
        if request.method not in ("GET", "HEAD") and origin not in (None, f"http://{host}", f"https://{host}"):
            raise Problem(403, "the request was sent by a page of another server")

    # What changes something.

    async def _keep(self, keeper: Keeper, request: Request, most: int, message: Mapping[str, Json]) -> dict[str, Json]:
        async with body_of(request, most, self.settings.seconds, self._room) as body:
            if not body:
                raise Problem(422, "the body is empty")
            return await self._answer(keeper, message, body)

    async def _answer(self, keeper: Keeper, message: Mapping[str, Json], body: bytes = b"") -> dict[str, Json]:
        # (a client that disconnects doesn't stop its request)
        found = await asyncio.shield(asyncio.ensure_future(keeper.ask(dict(message), body)))
        if "refused" in found:
            raise Problem(422, found["refused"])
        if "fault" in found:
            raise Problem(507, found["fault"])
        self._wake()
        return found

    async def put_machine(self, request: Request, client: Client, machine: str) -> Response:
        """Keeps a list, and waits for its verdicts for some time."""
        found = await self._keep(
            self._lists, request, self.settings.most_list, {"do": "put", "name": machine, "client": client.name}
        )
        await self._wait(machine, found["edit"])
        value = await self.ask(queries.machine, machine, "", "", 0, 0)
        if value is None:
            raise Problem(409, f"{machine} was removed meanwhile")
        value = {
            key: value[key]
            for key in ("name", "state", "counts", "edit", "judged", "fault", "leftOut", "remarks")
            if key in value
        }
        status = 202 if value["state"] == queries.WAITING else 201 if found["is_new"] else 200
        return Answer(value, status)

    async def _wait(self, machine: str, edit: int) -> None:
        """Waits for the verdicts of a list, for a limited time. They may be there already."""
        future: asyncio.Future[None] = asyncio.get_running_loop().create_future()
        self._unsettled[future] = machine, edit
        self._look()
        try:
            with contextlib.suppress(asyncio.TimeoutError):
                await asyncio.wait_for(future, self.settings.wait)
        finally:
            del self._unsettled[future]

    def _look(self) -> None:
        """Starts a check of all lists for which clients wait; if one is running already, it runs once more."""
        self._is_new = True
        if self._unsettled and (self._looking is None or self._looking.done()):
            self._looking = asyncio.get_running_loop().create_task(self._settle())

    async def _settle(self) -> None:
        """Answers the clients whose verdicts are there, by one query for all."""
        while self._is_new and self._unsettled:
            self._is_new = False
            unsettled = dict(self._unsettled)
            try:
                settled = await self.ask(queries.find_done, [*unsettled.values()])
            except Exception as fault:  # noqa: BLE001 (it is the answer to each who waits)
                _answer_all(unsettled, fault)
            else:
                _answer_all(future for future, one in unsettled.items() if one in settled)

    async def delete_machine(self, _request: Request, client: Client, machine: str) -> Response:
        found = await self._answer(self._lists, {"do": "delete", "name": machine, "client": client.name})
        if "missing" in found:
            raise Problem(404, f"there is no machine {machine}")
        self._notify()
        return Answer({"name": machine, "state": "removed", "edit": found["edit"]})

    async def feeds(self, request: Request, client: Client, feed: str, whole: str) -> Response:
        message = {"do": "feed", "name": feed, "is_whole": whole == "true", "client": client.name}
        found = await self._keep(self._feeds, request, self.settings.most_feed, message)
        return Answer(found, 202)

    async def delete_feed(self, _request: Request, _client: Client, number: str) -> Response:
        if "missing" in await self._answer(self._feeds, {"do": "drop", "feed": int(number)}):
            raise Problem(404, f"no feed {number} waits for pages")
        return Answer({"feed": int(number), "state": "removed"})

    async def table(self, _request: Request, _client: Client, table: str) -> Response:
        text = await self.ask(_table, table)
        if text is None:
            raise Problem(404, f"no table {table} was given")
        return Response(text, media_type="text/plain")

    async def put_table(self, request: Request, client: Client, table: str) -> Response:
        async with body_of(request, self.settings.most_list, self.settings.seconds, self._room) as body:
            return Answer(await self._answer(self._lists, {"do": "table", "name": table, "client": client.name}, body))

    # What is asked for.

    async def machines(self, request: Request, _client: Client, q: str, kind: str, limit: str, offset: str) -> Json:
        found, total = await self.ask(queries.machines, q, kind, int(limit), int(offset))
        return await self._with_cautions(request, {"machines": found, "total": total}, int(limit), int(offset))

    async def machine(
        self, request: Request, _client: Client, machine: str, q: str, kind: str, limit: str, offset: str
    ) -> Json:
        value = await self.ask(queries.machine, machine, q, kind, int(limit), int(offset))
        if value is None:
            raise Problem(404, f"there is no machine {machine}")
        return _paged(request, value, int(limit), int(offset))

    async def advisories(self, request: Request, _client: Client, q: str, kind: str, limit: str, offset: str) -> Json:
        found, total = await self.ask(queries.advisories, q, kind, int(limit), int(offset))
        return await self._with_cautions(request, {"advisories": found, "total": total}, int(limit), int(offset))

    async def advisory(
        self, request: Request, _client: Client, advisory: str, kind: str, limit: str, offset: str
    ) -> Json:
        try:
            value = await self.ask(queries.advisory, advisory, kind, int(limit), int(offset))
        except queries.FeedsUnread as fault:
            raise Problem(
                503, "the feeds that were accepted aren't read yet; ask again", {"Retry-After": "10"}
            ) from fault
        if value is None:
            raise Problem(404, f"the feeds have no advisory {advisory}")
        return await self._with_cautions(request, value, int(limit), int(offset))

    async def _with_cautions(
        self, request: Request, value: dict[str, Json], limit: int, offset: int
    ) -> dict[str, Json]:
        """The value, with the warnings that belong beside it."""
        return _paged(request, value | await self.ask(queries.cautions), limit, offset)

    async def changes(
        self,
        request: Request,
        _client: Client,
        since: str,
        until: str,
        after: str,
        machine: str,
        advisory: str,
        limit: str,
    ) -> Json:
        values = _time(since, "since"), _time(until, "until"), int(after), machine, advisory, int(limit)
        found = await self.ask(queries.changes, *values)
        value: dict[str, Json] = {"changes": found, **await self.ask(queries.cautions)}
        if len(found) == int(limit):
            value["next"] = str(request.url.include_query_params(after=found[-1]["id"]).replace(scheme="", netloc=""))
        return value

    async def names(self, request: Request, _client: Client, q: str, limit: str, offset: str) -> Json:
        state = await self.ask(queries.dictionary)
        found, total = await run_in_threadpool(entries.search, self.settings.folder, q, int(limit), int(offset))
        return _paged(request, {"names": found, "total": total, **state}, int(limit), int(offset))

    async def name(self, _request: Request, _client: Client, cpe: str, **more: str) -> Json:
        state = await self.ask(queries.dictionary)
        return await run_in_threadpool(name_forms.about, self._program, self.settings.folder, cpe, more["with"]) | state

    async def certificate(self, _request: Request, _client: Client, machine: str, advisory: str) -> Json:
        shard = await self.ask(_shard, machine)
        if shard is None:
            raise Problem(404, f"there is no machine {machine}")
        message = {
            "do": "certificate",
            "machine": machine,
            "id": advisory,
            "until": time.time() + self.settings.seconds,
        }
        worker, busy = self._workers[shard % len(self._workers)], Problem(
            503, "the workers are busy; ask again", {"Retry-After": "30"}
        )
        # (certificates must not delay lists)
        if worker.pending() >= _MOST_ASKED:
            raise busy
        try:
            found = await worker.ask(message, self.settings.seconds)
        except asyncio.TimeoutError as fault:
            raise busy from fault
        for word, status in (("missing", 404), ("fault", 503)):
            if word in found:
                raise Problem(status, found[word])
        del found["answer"]
        return {"machine": machine, "advisory": advisory, "made": time_text(time.time()), **found}

    async def health(self, _request: Request, _client: Client) -> Json:
        value = await self.ask(queries.health)
        value["trouble"] = list(map(strip_paths, value["trouble"]))
        value["workers"] = len(self._workers)
        value["restarts"] = sum(max(one.restarts, 0) for one in (*self._workers, self._lists, self._feeds))
        return {"version": VERSION, **value}

    async def metrics(self, _request: Request, _client: Client) -> Response:
        lines, seen = [], set()
        queues = (("lists", self._lists), ("feeds", self._feeds))
        own = [("cpe_queue", "Requests that wait to be kept.", {"queue": name}, one.waiting) for name, one in queues]
        own += [
            (
                "cpe_process_restarts",
                "Processes that were started again.",
                {},
                sum(max(one.restarts, 0) for one in self._workers),
            )
        ]
        own += [("cpe_listeners", "Clients that listen to events.", {}, self._listeners.total())]
        for name, what, labels, value in [*await self.ask(queries.metrics), *own]:
            if name not in seen:
                seen.add(name)
                lines += [f"# HELP {name} {what}", f"# TYPE {name} gauge"]
            marks = ",".join(f'{key}="{text}"' for key, text in labels.items())
            lines.append(f"{name}{{{marks}}} {value}" if marks else f"{name} {value}")
        return Response("\n".join([*lines, *self.numbers.lines()]) + "\n", media_type="text/plain; version=0.0.4")

    async def openapi(self, _request: Request, _client: Client) -> Response:
        return Answer(openapi(VERSION))

    async def events(self, request: Request, client: Client, after: str) -> Response:
        if request.method == "HEAD":
            return Response(media_type="text/event-stream")
        last = request.headers.get("last-event-id", "")
        begin = int(last) if last.isascii() and last.isdecimal() and len(last) < 19 else int(after)
        last_change = await self.ask(queries.last_change)
        who = _who(client, request)
        if self._listeners.total() >= _MOST_LISTENERS:
            raise Problem(503, f"{_MOST_LISTENERS} clients listen already", {"Retry-After": "60"})
        if self._listeners[who] >= _MOST_OF_CLIENT:
            raise Problem(503, f"this client listens {_MOST_OF_CLIENT} times already", {"Retry-After": "60"})
        first = f"retry: 3000\n: listening behind {min(begin, last_change) or last_change}\n\n"
        if begin > last_change:
            # (a backup replaced the database that had the changes of this number)
            first += f"event: restored\ndata: {json.dumps({'behind': begin, 'last': last_change})}\n\n"
        return EventStream(self._events(min(begin, last_change) or last_change, first), self._listeners, who)

    async def _events(self, last: int, first: str) -> AsyncIterator[str]:
        yield first
        while not self._is_ending:
            changed = self._changed
            found = await self.ask(queries.changes, 0, 0, last, "", "", _EVENTS)
            for one in found:
                last = one["id"]
                yield f"id: {last}\nevent: change\ndata: {json.dumps(one)}\n\n"
            if len(found) < _EVENTS:
                try:
                    await asyncio.wait_for(changed.wait(), _PAUSE)
                except asyncio.TimeoutError:
                    yield ": still here\n\n"


class EventStream(StreamingResponse):
    """Events for a client, which counts as a listener until the response ends."""

    def __init__(self, events: AsyncIterator[str], listeners: Counter[str], who: str) -> None:
        super().__init__(events, media_type="text/event-stream")
        self._listeners, self._who = listeners, who
        listeners[who] += 1

    async def __call__(self, scope: Any, receive: Any, send: Any) -> None:
        try:
            await super().__call__(scope, receive, send)
        finally:
            self._listeners[self._who] -= 1
            if not self._listeners[self._who]:
                del self._listeners[self._who]


def _who(client: Client | None, request: Request) -> str:
    """The name or address of a client, by which its requests are limited."""
    return client.name if client and client is not ANYONE else f"at {request.client.host if request.client else ''}"


def _answer_all(futures: Iterable[asyncio.Future[None]], fault: Exception | None = None) -> None:
    for future in futures:
        if not future.done():
            if fault is None:
                future.set_result(None)
            else:
                future.set_exception(fault)


def _shard(database: Any, name: str) -> int | None:
    row = database.execute("SELECT shard FROM machines WHERE name = ?", (name,)).fetchone()
    return None if row is None else row[0]


def _table(database: Any, name: str) -> str | None:
    row = database.execute("SELECT text FROM tables WHERE name = ?", (name,)).fetchone()
    return None if row is None else row[0]


def _paged(request: Request, value: dict[str, Json], limit: int, offset: int) -> dict[str, Json]:
    """The value, with the address of the next page of results."""
    if offset + limit < value["total"]:
        value["next"] = str(request.url.include_query_params(offset=offset + limit).replace(scheme="", netloc=""))
    return value


def _time(text: str, name: str) -> float:
    """The seconds of a time, 0 if there is none."""
    try:
        if not text:
            return 0
        if text.replace(".", "", 1).isdecimal():
            return float(text)
        found = datetime.fromisoformat(text)
        return (found.replace(tzinfo=timezone.utc) if found.tzinfo is None else found).timestamp()
    except (ValueError, OverflowError) as fault:
        raise Problem(400, f"{name} is no time") from fault


def _problem(fault: Problem, request: Request) -> Response:
    title = http.HTTPStatus(fault.status).phrase
    value = {"type": "about:blank", "title": title, "status": fault.status, "detail": fault.detail}
    if pages.is_wanted(request):
        return Response(pages.problem(value), fault.status, fault.headers, "text/html")
    return Answer(value, fault.status, fault.headers, "application/problem+json")


def _endpoint(service: Service, route: Route) -> Callable:
    async def endpoint(request: Request) -> Response:
        begin = time.monotonic()
        response: Response | None = None
        try:
            response = await _answer_request(service, route, request)
        except Problem as fault:
            response = _problem(fault, request)
        except ProcessEnded:
            response = _problem(
                Problem(503, "a process of the service ended meanwhile; ask again", {"Retry-After": "5"}), request
            )
        except Fatal as fault:
            response = _problem(Problem(503, strip_paths(str(fault))), request)
        except OSError as fault:
            response = _problem(Problem(503, f"the system refuses it: {os.strerror(fault.errno or 0)}"), request)
        except Exception as fault:  # noqa: BLE001 (whatever it is, the client gets an answer, and the log has it)
            print(f"{route.name}: {type(fault).__name__}: {fault}", flush=True)
            response = _problem(Problem(500, "the service has a fault, which its log has"), request)
        finally:
            if response is not None:
                service.numbers.add(route.name, response.status_code, time.monotonic() - begin)
        for name, value in _SECURITY.items():
            response.headers.setdefault(name, value)
        return response

    return endpoint


async def _answer_request(service: Service, route: Route, request: Request) -> Response:
    client = service.let_in(request, route.is_writing)
    values = {**read_path(request, route.parameters), **read_query(request, route.parameters)}
    found = await getattr(service, route.name)(request, client, **values)
    if isinstance(found, Response):
        return found
    if pages.is_wanted(request):
        return Response(pages.page(route.name, found, values), media_type="text/html", headers={"Vary": "Accept"})
    return Answer(found, headers={"Vary": "Accept"})


async def _http_fault(request: Request, fault: HTTPException) -> Response:
    known = {404: "there is no such address; /openapi.json lists them", 405: f"{request.method} isn't taken here"}
    return _problem(
        Problem(fault.status_code, known.get(fault.status_code, str(fault.detail)), getattr(fault, "headers", None)),
        request,
    )


async def _front(_request: Request) -> Response:
    return RedirectResponse("/machines")


def create_app(settings: Settings) -> tuple[Starlette, Service]:
    """The application, and the service behind it."""
    service = Service(settings)
    addresses = [Address("/", _front), *(Address(f"/assets/{name}", _asset_of(name)) for name in pages.ASSETS)]
    for route in ROUTES:
        # (the id of an advisory is any text of a feed, and may have a slash)
        path = route.path.replace("{advisory}", "{advisory:path}")
        addresses.append(Address(path, _endpoint(service, route), methods=[route.method]))
    handlers = {HTTPException: _http_fault}
    app = Starlette(
        routes=addresses, exception_handlers=handlers, on_startup=[service.start], on_shutdown=[service.end]
    )
    app.router.redirect_slashes = False
    return app, service


def _asset_of(name: str) -> Callable:
    async def asset(_request: Request) -> Response:
        body, kind = pages.ASSETS[name]
        return Response(
            body, media_type=kind, headers={"Cache-Control": "max-age=3600", "X-Content-Type-Options": "nosniff"}
        )

    return asset
