#!/usr/bin/env python3
"""Answers cases by OpenSCAP's library (libopenscap25 in Debian): names in both bindings, and applicability.

A statement is evaluated as by `oscap xccdf eval`: it is read as XML, and each fact is looked up in a dictionary of the
items, each of which has a check that holds. OpenSCAP knows two truths, so a statement with a check that is neither is
not offered. Its header says that names match as in CPE 2.1. So it gets facts and items as URIs, and what CPE 2.1
doesn't have is not offered: specials, NA, a part that is ANY, and the attributes that CPE 2.3 packs into the edition.
"""

import contextlib
import ctypes
import ctypes.util
import json
import re
import sys
from xml.sax.saxutils import quoteattr

ATTRIBUTES = ("vendor", "product", "version", "update", "edition", "language", "sw_edition", "target_sw", "target_hw", "other")
PARTS = {1: "h", 2: "o", 3: "a"}
LANGUAGE = "http://cpe.mitre.org/language/2.0"
# A name of CPE 2.1 as a formatted string, with the components that a URI has.
OLD_NAME = re.compile(r"cpe:2\.3:([aoh](?::(?:[A-Za-z0-9_.]+|\*)){6})(?::\*){4}")
# The system, the document and the id of the check of each item.
INSTALLED = b"installed"

POINTER, TEXT, FLAG = ctypes.c_void_p, ctypes.c_char_p, ctypes.c_bool
CHECK = ctypes.CFUNCTYPE(FLAG, TEXT, TEXT, TEXT, POINTER)
FACT = ctypes.CFUNCTYPE(FLAG, POINTER, POINTER)
CALLS = {
    "cpe_name_new": (POINTER, [TEXT]),
    "cpe_name_free": (None, [POINTER]),
    "cpe_name_get_part": (ctypes.c_int, [POINTER]),
    **{f"cpe_name_get_{it}": (TEXT, [POINTER]) for it in ATTRIBUTES},
    "cpe_name_applicable_dict": (FLAG, [POINTER, POINTER, CHECK, POINTER]),
    "cpe_dict_model_new": (POINTER, []),
    "cpe_dict_model_free": (None, [POINTER]),
    "cpe_dict_model_add_item": (FLAG, [POINTER, POINTER]),
    "cpe_item_new": (POINTER, []),
    "cpe_item_set_name": (FLAG, [POINTER, POINTER]),
    "cpe_item_add_check": (FLAG, [POINTER, POINTER]),
    "cpe_check_new": (POINTER, []),
    "cpe_check_set_system": (FLAG, [POINTER, TEXT]),
    "cpe_check_set_href": (FLAG, [POINTER, TEXT]),
    "cpe_check_set_identifier": (FLAG, [POINTER, TEXT]),
    "oscap_source_new_from_memory": (POINTER, [TEXT, ctypes.c_size_t, TEXT]),
    "oscap_source_free": (None, [POINTER]),
    "cpe_lang_model_import_source": (POINTER, [POINTER]),
    "cpe_lang_model_free": (None, [POINTER]),
    "cpe_platform_applicable_lang_model": (FLAG, [TEXT, POINTER, CHECK, FACT, POINTER]),
}


class Refused(Exception):
    """OpenSCAP refuses a text."""


class NotOffered(Exception):
    """OpenSCAP has no call for this."""


def loaded() -> ctypes.CDLL:
    found = ctypes.util.find_library("openscap")
    if not found:
        sys.exit("there is no libopenscap")
    library = ctypes.CDLL(found)
    for name, (result, arguments) in CALLS.items():
        call = getattr(library, name)
        call.restype, call.argtypes = result, arguments
    return library


openscap = loaded()


@contextlib.contextmanager
def named(text: str):
    name = openscap.cpe_name_new(text.encode())
    if not name:
        raise Refused
    try:
        yield name
    finally:
        openscap.cpe_name_free(name)


def of_formatted_string(component: str) -> str:
    """The value of a component, which OpenSCAP keeps as it is written."""
    value, is_quoted = "", False
    for it in component:
        value += "\\" + it if it in ".-" and not is_quoted else it
        is_quoted = it == "\\" and not is_quoted
    return value


def of_uri(component: str) -> str:
    """The value of a component, whose percent forms OpenSCAP has decoded."""
    specials = {"\x01": "?", "\x02": "*"}
    return "".join(specials.get(it) or (it if it == "_" or it.isalnum() else "\\" + it) for it in component)


def unbound(text: str, any_value: str, of_component) -> dict:
    with named(text) as name:
        values = {"part": PARTS[part]} if (part := openscap.cpe_name_get_part(name)) in PARTS else {}
        for it in ATTRIBUTES:
            component = (getattr(openscap, f"cpe_name_get_{it}")(name) or b"").decode(errors="replace")
            if component not in ("", any_value):
                values[it] = None if component == "-" else of_component(component)
    return {"name": values}


def old_uri(text: str) -> str:
    """The URI of a name, if CPE 2.1 has the name."""
    found = OLD_NAME.fullmatch(text)
    if not found:
        raise NotOffered
    return "cpe:/" + ":".join("" if it == "*" else it for it in found[1].split(":")).rstrip(":")


def dictionary(items: list[str]) -> int:
    """A dictionary with a check for each item, all of which hold."""
    made = openscap.cpe_dict_model_new()
    for text in items:
        item, check, name = openscap.cpe_item_new(), openscap.cpe_check_new(), openscap.cpe_name_new(old_uri(text).encode())
        if not name:
            raise Refused
        openscap.cpe_item_set_name(item, name)
        openscap.cpe_check_set_system(check, INSTALLED)
        openscap.cpe_check_set_href(check, INSTALLED)
        openscap.cpe_check_set_identifier(check, INSTALLED)
        openscap.cpe_item_add_check(item, check)
        openscap.cpe_dict_model_add_item(made, item)
    return made


def xml(test: dict) -> str:
    if "fact" in test:
        return f"<fact-ref name={quoteattr(old_uri(test['fact']))}/>"
    if "check" in test:
        key = test["check"]
        return f"<check-fact-ref system={quoteattr(key['system'])} href={quoteattr(key['href'])} id-ref={quoteattr(key['id'])}/>"
    children = "".join(map(xml, test["of"]))
    return f'<logical-test operator="{test["op"]}" negate="{str(test["negate"]).lower()}">{children}</logical-test>'


def evaluated(given: dict) -> dict:
    keys = ("system", "href", "id")
    results = {tuple(it[key].encode() for key in keys): it["result"] for it in given["checks"]}
    if "mode" in given or "entries" in given or any(it not in ("TRUE", "FALSE") for it in used(given["test"], results)):
        raise NotOffered
    language = (
        f'<platform-specification xmlns="{LANGUAGE}"><platform id="it">{xml(given["test"])}</platform></platform-specification>'.encode()
    )
    source = openscap.oscap_source_new_from_memory(language, len(language), b"it.xml")
    model = openscap.cpe_lang_model_import_source(source)
    if not model:
        raise Refused
    items = dictionary(given["items"])
    check = CHECK(lambda system, href, id, _: (system, href, id) == (INSTALLED,) * 3 or results[system, href, id] == "TRUE")
    fact = FACT(lambda name, _: openscap.cpe_name_applicable_dict(name, items, check, None))
    is_true = openscap.cpe_platform_applicable_lang_model(b"it", model, check, fact, None)
    openscap.cpe_lang_model_free(model)
    openscap.oscap_source_free(source)
    return {"truth": "TRUE" if is_true else "FALSE"}


def used(test: dict, results: dict) -> list[str]:
    """The results of the checks in a test."""
    if "check" in test:
        return [results.get(tuple(test["check"][it].encode() for it in ("system", "href", "id")), "UNKNOWN")]
    return [it for child in test.get("of", []) for it in used(child, results)]


def answer(case: dict) -> dict:
    given = case["input"]
    try:
        if case["kind"] == "unbind-fs":
            return unbound(given["text"], "*", of_formatted_string)
        if case["kind"] == "unbind-uri":
            return unbound(given["text"], "", of_uri)
        if case["kind"] == "evaluate":
            return evaluated(given)
    except Refused:
        return {"refused": True}
    except NotOffered:
        pass
    return {"offered": False}


if __name__ == "__main__":
    for line in sys.stdin:
        case = json.loads(line)
        print(json.dumps({"id": case["id"], "result": answer(case)}), flush=True)
