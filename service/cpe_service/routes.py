"""The addresses of the service, each with its parameters; the OpenAPI page is made from this table."""
from __future__ import annotations

from collections.abc import Mapping
from dataclasses import dataclass

from .queries import KINDS
from .request_rules import Parameter

_TIME = r"[0-9]{1,12}(\.[0-9]{1,6})?|[0-9]{4}-[0-9]{2}-[0-9]{2}(T[0-9]{2}:[0-9]{2}(:[0-9]{2}(\.[0-9]{1,6})?)?(Z|[+-][0-9]{2}:[0-9]{2})?)?"

MACHINE = Parameter(
    "machine",
    "the name of a machine: letters, digits and _.@+:~-, the first of them a letter, a digit or _",
    r"[A-Za-z0-9_][A-Za-z0-9_.@+:~-]*",
    200,
    in_path=True,
)
ADVISORY = Parameter("advisory", "the id of an advisory", r"[^\x00-\x1f\x7f]+", 300, in_path=True)
TABLE = Parameter("table", "names, letters, suppress or settled", "names|letters|suppress|settled", in_path=True)
LIMIT = Parameter("limit", "how many, from 1 to 1000", "[1-9][0-9]{0,2}|1000", 4, "100")
OFFSET = Parameter("offset", "how many are passed over", "[0-9]{1,9}", 9, "0")
KIND = Parameter("kind", f"a kind of verdict: {', '.join(KINDS)}", "|".join(["", *KINDS]), 10)
Q = Parameter("q", "a text that it has")
SINCE = Parameter("since", "a time, as 2026-12-01T08:00:00Z, 2026-12-01, or in seconds", f"(?:{_TIME})?", 40)
UNTIL = Parameter("until", SINCE.what, f"(?:{_TIME})?", 40)
AFTER = Parameter("after", "the number of the last change that is known", "[0-9]{1,18}", 18, "0")
OF_MACHINE = Parameter("machine", "the name of a machine", most=200)
OF_ADVISORY = Parameter("advisory", "the id of an advisory")
WORDS = Parameter("q", "the words to search for")
CPE = Parameter("cpe", "a CPE name", r"[^\x00-\x1f\x7f]+", 2_000, None)
WITH = Parameter("with", "another CPE name, to compare", r"[^\x00-\x1f\x7f]*", 2_000)
FEED = Parameter(
    "feed", "a name for the fetch, a new one for each, if its pages are sent one by one", r"[A-Za-z0-9_.-]*", 100
)
NUMBER = Parameter("number", "the number of a feed", "[0-9]{1,18}", 18, in_path=True)
IS_WHOLE = Parameter("whole", "true if the feed replaces all of its kind", "true|false", 5, "false")


@dataclass(frozen=True)
class Route:
    """An address: the method, the path, the method of Service that answers it, its description, and its parameters.
    `body` describes the request's body."""

    method: str
    path: str
    name: str
    what: str
    parameters: tuple[Parameter, ...] = ()
    body: str = ""

    @property
    def is_writing(self) -> bool:
        """Whether it needs a token that may write."""
        return self.method != "GET"


ROUTES = (
    Route("GET", "/machines", "machines", "lists the machines", (Q, KIND, LIMIT, OFFSET)),
    Route(
        "PUT",
        "/machines/{machine}",
        "put_machine",
        "keeps the software list of a machine, and judges it",
        (MACHINE,),
        "a software list",
    ),
    Route("DELETE", "/machines/{machine}", "delete_machine", "removes a machine", (MACHINE,)),
    Route(
        "GET",
        "/machines/{machine}",
        "machine",
        "shows the verdicts of a machine, each with what it depends on",
        (MACHINE, Q, KIND, LIMIT, OFFSET),
    ),
    Route(
        "GET",
        "/advisories",
        "advisories",
        "lists the advisories with a verdict that isn't FALSE",
        (Q, KIND, LIMIT, OFFSET),
    ),
    Route(
        "GET",
        "/advisories/{advisory}",
        "advisory",
        "shows the machines of an advisory, and since when",
        (ADVISORY, KIND, LIMIT, OFFSET),
    ),
    Route(
        "GET",
        "/changes",
        "changes",
        "lists the changes of verdicts",
        (SINCE, UNTIL, AFTER, OF_MACHINE, OF_ADVISORY, LIMIT),
    ),
    Route("GET", "/names", "names", "searches the dictionary by words, best first", (WORDS, LIMIT, OFFSET)),
    Route("GET", "/name", "name", "has a name in all forms, where it leads, and its relation to another", (CPE, WITH)),
    Route(
        "GET",
        "/certificates/{machine}/{advisory}",
        "certificate",
        "makes the certificate of a verdict, and checks it",
        (MACHINE, ADVISORY),
    ),
    Route(
        "POST",
        "/feeds",
        "feeds",
        "takes a page of a feed, or several in an archive",
        (FEED, IS_WHOLE),
        "pages of NVD's API 2.0, or CVE records",
    ),
    Route("DELETE", "/feeds/{number}", "delete_feed", "removes a feed that waits for pages", (NUMBER,)),
    Route("GET", "/tables/{table}", "table", "has a table of settings", (TABLE,)),
    Route(
        "PUT",
        "/tables/{table}",
        "put_table",
        "keeps a table of settings",
        (TABLE,),
        "the lines of the table, as scan.py reads them",
    ),
    Route("GET", "/health", "health", "has whether all that was accepted is judged", ()),
    Route("GET", "/metrics", "metrics", "has numbers in the text form of Prometheus", ()),
    Route("GET", "/events", "events", "sends each change of a verdict at once (server-sent events)", (AFTER,)),
    Route("GET", "/openapi.json", "openapi", "has this table", ()),
)


def openapi(version: str) -> Mapping:
    """The table as OpenAPI 3 has it."""
    paths: dict[str, dict] = {}
    for route in ROUTES:
        operation = {
            "operationId": route.name,
            "summary": route.what,
            "parameters": [one.as_json() for one in route.parameters],
            "responses": {"200": {"description": "the answer"}, "default": {"$ref": "#/components/responses/problem"}},
            "security": [{}, {"bearer": []}, {"basic": []}],
        }
        if route.body:
            operation["requestBody"] = {"required": True, "description": route.body, "content": {"*/*": {}}}
        paths.setdefault(route.path, {})[route.method.lower()] = operation
    problem = {
        "type": "object",
        "properties": {key: {"type": "string"} for key in ("type", "title", "detail")}
        | {"status": {"type": "integer"}},
    }
    content = {"application/problem+json": {"schema": problem}}
    return {
        "openapi": "3.0.3",
        "info": {"title": "cpe: which machines are affected by which advisories", "version": version},
        "paths": paths,
        "components": {
            "responses": {
                "problem": {"description": "why the request is refused, in one sentence", "content": content}
            },
            "securitySchemes": {word: {"type": "http", "scheme": word} for word in ("bearer", "basic")},
        },
    }
