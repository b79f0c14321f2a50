"""A result as OpenVEX 0.2.0: a statement for each advisory and claim (claims.py), with the machines as its products.

A machine is the product `pkg:generic/NAME`. If it isn't affected, the reason is an impact statement, and never one of
the justifications of OpenVEX, because each of these claims more than a verdict shows. The action statement is to read
the advisory, because nothing more is known. What was left out is in `tooling`, the only text of a document outside its
statements.
"""
from __future__ import annotations

import json
import urllib.parse
import uuid
from collections.abc import Mapping, Sequence

from ..console import Fatal
from ..feeds import Json, json_text
from .claims import Claim, State, claims_of
from .gaps import Gaps

CONTEXT = "https://openvex.dev/ns/v0.2.0"
_TOOL = "scan.py, of the recipes of cpe"
_AUTHOR = "Unknown Author"
_MOST_TOLD = 20


def lines(value: Mapping[str, Json], time: str, is_all: bool) -> list[str]:
    return [json_text(document(value, time, is_all))]


def document(value: Mapping[str, Json], time: str, is_all: bool) -> dict[str, Json]:
    """The document. Fatal if there is nothing to state, which OpenVEX has no form for."""
    gaps = Gaps(value)
    claims = claims_of(value, gaps, is_all)
    statements = [_statement(claim, machines, claims.details[claim.id]) for claim, machines in claims.machines.items()]
    if not statements:
        none = "" if is_all else "; --all states what is FALSE"
        raise Fatal(f"there is nothing to state, and a document of OpenVEX has one statement or more{none}")
    made = {"author": _AUTHOR, "timestamp": time, "version": 1, "tooling": _tooling(gaps), "statements": statements}
    return {"@context": CONTEXT, "@id": content_id(made), **made}


def content_id(value: Json) -> str:
    """An id that the same content always has."""
    return uuid.uuid5(uuid.NAMESPACE_URL, json.dumps(value, sort_keys=True)).urn


def _tooling(gaps: Gaps) -> str:
    words = [*gaps.words(), *gaps.notes()]
    more = [f"and {len(words) - _MOST_TOLD:,} more"] if len(words) > _MOST_TOLD else []
    return "; ".join([_TOOL, *words[:_MOST_TOLD], *more])


def _statement(claim: Claim, machines: Sequence[str], details: Mapping[str, Json]) -> dict[str, Json]:
    vulnerability = {"name": claim.id} | ({"description": details["title"]} if details.get("title") else {})
    products = [{"@id": f"pkg:generic/{urllib.parse.quote(name, safe='')}"} for name in machines]
    statement: dict[str, Json] = {"vulnerability": vulnerability, "products": products, "status": claim.state.value}
    if claim.state is State.NOT_AFFECTED:
        statement["impact_statement"] = claim.reason
    elif claim.reason:
        statement["status_notes"] = claim.reason
    if claim.state is State.AFFECTED:
        url = details.get("url")
        statement["action_statement"] = f"Read the advisory: {url}" if url else "Read the advisory."
    return statement
