#!/usr/bin/env python3
"""CPE 2.3 in Python alone, as an adapter: written from the reports and docs/PROFILE.md, without a look at cpe's code.

It answers all cases right. wrong.py beside it changes one rule at a time, to test that the cases of this rule fail, and
no others. It is small and slow, and gives no places.
"""

import json
import re
import sys

ATTRIBUTES = ("part", "vendor", "product", "version", "update", "edition", "language", "sw_edition", "target_sw", "target_hw", "other")
PACKED = ("edition", "sw_edition", "target_sw", "target_hw", "other")
# (ANY is a text too, so the logical value is none)
ANY, NA = False, None
Value = str | bool | None

LETTERS = "A-Za-z0-9_"
QUOTED = r"""!"#$%&'()*+,/:;<=>?@\[\\\]^`{|}~"""
LEAD = TRAIL = r"(\?+|\*?)"
# A text of a name, of a formatted string, and of a component of a URI: what is before its body, its body, and what is
# after it.
TEXT_OF_NAME = re.compile(rf"{LEAD}((?:[{LETTERS}]|\\[{QUOTED}.-])+){TRAIL}")
TEXT_OF_FS = re.compile(rf"{LEAD}((?:[{LETTERS}.-]|\\[{QUOTED}])+){TRAIL}")
FORM = "%(?:2[1-9a-f]|3[a-f]|40|5[b-e]|60|7[b-e])"
TEXT_OF_URI = re.compile(rf"((?:%01)+|(?:%02)?)((?:[a-z0-9_.~-]|{FORM})+)((?:%01)+|(?:%02)?)")
COMPONENT_OF_FS = re.compile(r"(?:[^:\\]|\\.)*", re.DOTALL)
LANGUAGE = re.compile(r"[A-Za-z]{2,3}(\\-([A-Za-z]{2}|[0-9]{3}))?")
MOST_DEPTH = 32


class Refused(Exception):
    pass


def lawful(attribute: str, value: Value) -> Value:
    """The value, if the attribute may have it."""
    if value in (ANY, NA):
        return value
    if not TEXT_OF_NAME.fullmatch(value) or value == r"\-":
        raise Refused
    if attribute == "part" and value not in ("a", "o", "h"):
        raise Refused
    if attribute == "language" and not LANGUAGE.fullmatch(value):
        raise Refused
    return value


def characters(text: str) -> list[str]:
    """Characters, each with its backslash."""
    return re.findall(r"\\.|.", text, re.DOTALL)


def value_of_fs(component: str) -> Value:
    if component in ("*", "-"):
        return ANY if component == "*" else NA
    if not TEXT_OF_FS.fullmatch(component):
        raise Refused
    return "".join("\\" + it if it in ".-" else it for it in characters(component))


def unbind_fs(text: str) -> dict:
    if not text.startswith("cpe:2.3:"):
        raise Refused
    rest, components = text.removeprefix("cpe:2.3"), []
    while rest.startswith(":"):
        components.append(COMPONENT_OF_FS.match(rest, 1)[0])
        rest = rest[1 + len(components[-1]) :]
    if rest or len(components) != len(ATTRIBUTES):
        raise Refused
    return {at: lawful(at, value_of_fs(it)) for at, it in zip(ATTRIBUTES, components, strict=True)}


def value_of_uri(component: str) -> Value:
    if component in ("", "-"):
        return NA if component else ANY
    found = TEXT_OF_URI.fullmatch(component)
    if not found:
        raise Refused
    body = re.sub("%(..)", lambda it: chr(int(it[1], 16)), found[2])
    quoted = "".join(it if re.fullmatch(f"[{LETTERS}]", it) else "\\" + it for it in body)
    return (found[1] + "|" + found[3]).replace("%01", "?").replace("%02", "*").replace("|", quoted)


def unbind_uri(text: str) -> dict:
    text = text.lower()
    if not text.startswith("cpe:/"):
        raise Refused
    components = text.removeprefix("cpe:/").split(":")
    if len(components) > 7:
        raise Refused
    name = dict.fromkeys(ATTRIBUTES, ANY) | dict(zip(ATTRIBUTES, components, strict=False))
    if len(components) > 5 and components[5].startswith("~"):
        fields = components[5][1:].split("~")
        if len(fields) != len(PACKED):
            raise Refused
        name |= dict(zip(PACKED, fields, strict=True))
    return {at: ANY if it == ANY else lawful(at, value_of_uri(it)) for at, it in name.items()}


def bind_fs(name: dict) -> str:
    return "cpe:2.3:" + ":".join(component_of_fs(name[it]) for it in ATTRIBUTES)


def component_of_fs(value: Value) -> str:
    if value in (ANY, NA):
        return "*" if value == ANY else "-"
    return "".join(it[1] if it in (r"\.", r"\-") else it for it in characters(value))


def component_of_uri(value: Value) -> str:
    if value in (ANY, NA):
        return "" if value == ANY else "-"
    return "".join(map(character_of_uri, characters(value)))


def character_of_uri(character: str) -> str:
    if character in "?*":
        return "%01" if character == "?" else "%02"
    if character in (r"\.", r"\-"):
        return character[1]
    return f"%{ord(character[1]):02x}" if len(character) == 2 else character


def bind_uri(name: dict) -> str:
    components = [component_of_uri(name[it]) for it in ATTRIBUTES[:7]]
    if any(name[it] != ANY for it in PACKED[1:]):
        components[5] = "~" + "~".join(component_of_uri(name[it]) for it in PACKED)
    return "cpe:/" + ":".join(components).rstrip(":")


def has_special(value: Value) -> bool:
    return value not in (ANY, NA) and any(it in "?*" for it in characters(value))


def allows(specials: str, count: int) -> bool:
    return specials == "*" or count <= len(specials)


def matches(pattern: str, text: str) -> bool:
    lead, body, trail = TEXT_OF_NAME.fullmatch(pattern).groups()
    body, of = characters(body), characters(text)
    starts = range(len(of) - len(body) + 1)
    return any(of[it : it + len(body)] == body and allows(lead, it) and allows(trail, len(of) - len(body) - it) for it in starts)


def relate(source: Value, target: Value) -> str:
    if has_special(target):
        return "UNDEFINED"
    source, target = (it if it in (ANY, NA) else it.lower() for it in (source, target))
    if source == target:
        return "EQUAL"
    if source == ANY:
        return "SUPERSET"
    if target == ANY:
        return "SUBSET"
    if NA in (source, target):
        return "DISJOINT"
    return "SUPERSET" if has_special(source) and matches(source, target) else "DISJOINT"


def relations(source: dict, target: dict) -> list[str]:
    return [relate(source[it], target[it]) for it in ATTRIBUTES]


def relate_names(source: dict, target: dict) -> str:
    found = set(relations(source, target))
    if "DISJOINT" in found:
        return "DISJOINT"
    if found == {"EQUAL"}:
        return "EQUAL"
    if found <= {"SUBSET", "EQUAL"}:
        return "SUBSET"
    return "SUPERSET" if found <= {"SUPERSET", "EQUAL"} else "UNDEFINED"


def covers(source: str, target: str) -> bool:
    return set(relations(unbind_fs(source), unbind_fs(target))) <= {"SUPERSET", "EQUAL"}


def may_cover(source: str, target: str) -> bool:
    """Whether a name may cover one that is known in part."""
    fact, item = unbind_fs(source), unbind_fs(target)
    return all(has_special(item[it]) or relate(fact[it], item[it]) in ("SUPERSET", "EQUAL") for it in ATTRIBUTES)


def is_identifier(text: str) -> bool:
    name = unbind_fs(text)
    is_named = all(name[it] not in (ANY, NA) for it in ("part", "vendor", "product"))
    return is_named and not any(map(has_special, name.values()))


def dictionary(entries: list[dict]) -> dict:
    return {it["name"].lower(): it.get("deprecation") for it in entries}


def ends(entries: dict, name: str) -> set[str]:
    """The names to which deprecations lead, which are not deprecated themselves."""
    name = name.lower()
    if entries.get(name) is None:
        return {name}
    return {end for it in entries[name]["successors"] for end in ends(entries, it)}


def state(entries: dict, name: str) -> str:
    if name.lower() not in entries:
        return "absent"
    deprecation = entries[name.lower()]
    return deprecation["kind"] if deprecation else "active"


def all_successors(entries: dict, name: str) -> set[str]:
    found = {it.lower() for it in (entries.get(name.lower()) or {}).get("successors", [])}
    return found.union(*(all_successors(entries, it) for it in found))


def may_deprecate(entries: dict, name: str, kind: str, successors: list[str]) -> bool:
    if state(entries, name) != "active" or (kind == "NAME_REMOVAL") != (not successors) or len(successors) > 16:
        return False
    is_known = all(it.lower() in entries for it in successors) and len({it.lower() for it in successors}) == len(successors)
    return is_known and not any(name.lower() in {it.lower()} | all_successors(entries, it) for it in successors)


def truth_of_fact(fact: str, given: dict) -> str:
    entries = dictionary(given.get("entries", []))
    of = (lambda name: ends(entries, name)) if given.get("mode") == "follow" else (lambda name: {name})
    pairs = [(it, item) for it in of(fact) for each in given["items"] for item in of(each)]
    if any(covers(*it) for it in pairs):
        return "TRUE"
    return (
        "UNKNOWN"
        if any(map(has_special, unbind_fs(item).values()) for _, item in pairs) and any(may_cover(*it) for it in pairs)
        else "FALSE"
    )


def truth_of_check(key: dict, given: dict) -> str:
    found = [it["result"] for it in given["checks"] if all(it[at] == key[at] for at in ("system", "href", "id"))]
    return found[-1] if found else "UNKNOWN"


def joined(op: str, truths: list[str]) -> str:
    order = {"AND": ("FALSE", "ERROR", "UNKNOWN", "TRUE"), "OR": ("TRUE", "ERROR", "UNKNOWN", "FALSE")}[op]
    return next(it for it in order if it in truths)


def negated(truth: str) -> str:
    return {"TRUE": "FALSE", "FALSE": "TRUE"}.get(truth, truth)


def evaluate(test: dict, given: dict, depth: int = 1) -> str:
    if "fact" in test:
        return truth_of_fact(test["fact"], given)
    if "check" in test:
        return truth_of_check(test["check"], given)
    if depth > MOST_DEPTH:
        raise Refused
    truth = joined(test["op"], [evaluate(it, given, depth + 1) for it in test["of"]])
    return negated(truth) if test["negate"] else truth


def read(name: dict) -> dict:
    """A name of a case: what is missing is ANY."""
    return dict.fromkeys(ATTRIBUTES, ANY) | {at: lawful(at, value) for at, value in name.items()}


def written(name: dict) -> dict:
    return {"name": {at: value for at, value in name.items() if value != ANY}}


def answer(kind: str, given: dict) -> dict:
    if kind in ("unbind-fs", "unbind-uri"):
        return written(unbind_fs(given["text"]) if kind == "unbind-fs" else unbind_uri(given["text"]))
    if kind in ("bind-fs", "bind-uri"):
        return {"text": bind_fs(read(given["name"])) if kind == "bind-fs" else bind_uri(read(given["name"]))}
    if kind == "relate-values":
        source, target = (unbind_fs(given[it])[given["attribute"]] for it in ("source", "target"))
        return {"relation": relate(source, target)}
    if kind == "relate-names":
        return {"relation": relate_names(unbind_fs(given["source"]), unbind_fs(given["target"]))}
    if kind == "identifier":
        return {"accepted": is_identifier(given["text"])}
    if kind == "evaluate":
        return {"truth": evaluate(given["test"], given)}
    entries = dictionary(given["entries"])
    if kind == "lookup":
        return {"state": state(entries, given["ask"])}
    if kind == "chain":
        return {"ends": sorted(ends(entries, given["ask"]))}
    if kind == "search":
        return {"found": [it for it in entries if covers(given["ask"], it)]}
    return {"accepted": may_deprecate(entries, *(given["deprecate"][it] for it in ("name", "kind", "successors")))}


if __name__ == "__main__":
    for line in sys.stdin:
        case = json.loads(line)
        try:
            result = answer(case["kind"], case["input"])
        except Refused:
            result = {"refused": True}
        print(json.dumps({"id": case["id"], "result": result}), flush=True)
