"""Checks a value by a JSON Schema. It knows the keywords of the schemas beside it; any other keyword is an error, so
that no rule is ignored."""
import json
import re
from pathlib import Path

_SCHEMAS = Path(__file__).resolve().parent / "schemas"
_TYPES = {"object": dict, "array": list, "string": str, "boolean": bool, "integer": int, "number": (int, float)}
_FORMATS = {
    "date-time": re.compile(r"\d{4}-\d{2}-\d{2}T\d{2}:\d{2}:\d{2}(\.\d+)?(Z|[+-]\d{2}:\d{2})"),
    # (only the characters of RFC 3986 and 3987)
    "uri": re.compile(r"[A-Za-z][A-Za-z0-9+.-]*:([A-Za-z0-9._~:/?#\[\]@!$&'()*+,;=-]|%[0-9A-Fa-f]{2})*"),
    "uri-reference": re.compile(r"([A-Za-z0-9._~:/?#\[\]@!$&'()*+,;=-]|%[0-9A-Fa-f]{2})*"),
    "iri": re.compile(r"[A-Za-z][A-Za-z0-9+.-]*:([A-Za-z0-9._~:/?#\[\]@!$&'()*+,;=\u00a0-\U0010ffff-]|%[0-9A-Fa-f]{2})*"),
}
# Keywords that don't restrict values.
_NOTES = {"$schema", "$comment", "$defs", "title", "description"}


def schema(name):
    return json.loads((_SCHEMAS / f"{name}.json").read_text())


def faults(value, name):
    """The faults of a value by the schema of this name, each with its place."""
    return faults_by(value, schema(name))


def faults_by(value, root):
    """The faults of a value by this schema, each with its place."""
    return list(_Checker(root).faults(value, root, ""))


class _Checker:
    def __init__(self, root):
        self._root = root

    def faults(self, value, rules, place):
        for word, rule in rules.items():
            if word in _NOTES or word in ("then", "additionalProperties"):
                continue
            check = getattr(self, f"_{word.lstrip('$')}", None)
            if check is None:
                raise AssertionError(f"the schema has the word {word}, which isn't known")
            yield from check(value, rule, rules, place)

    def _ref(self, value, rule, rules, place):
        assert rule.startswith("#/$defs/"), rule
        yield from self.faults(value, self._root["$defs"][rule.removeprefix("#/$defs/")], place)

    def _type(self, value, rule, rules, place):
        if not isinstance(value, _TYPES[rule]) or isinstance(value, bool) and rule in ("integer", "number"):
            yield f"{place}: no {rule}"

    def _enum(self, value, rule, rules, place):
        if value not in rule:
            yield f"{place}: none of {rule}"

    def _const(self, value, rule, rules, place):
        if value != rule:
            yield f"{place}: not {rule}"

    def _required(self, value, rule, rules, place):
        if isinstance(value, dict):
            yield from (f"{place}: no member {key}" for key in rule if key not in value)

    def _properties(self, value, rule, rules, place):
        if not isinstance(value, dict):
            return
        for key, one in value.items():
            if key in rule:
                yield from self.faults(one, rule[key], f"{place}/{key}")
            elif rules.get("additionalProperties") is False:
                yield f"{place}: a member {key}"
            elif isinstance(rules.get("additionalProperties"), dict):
                yield from self.faults(one, rules["additionalProperties"], f"{place}/{key}")

    def _items(self, value, rule, rules, place):
        if isinstance(value, list):
            for number, one in enumerate(value):
                yield from self.faults(one, rule, f"{place}/{number}")

    def _minItems(self, value, rule, rules, place):
        if isinstance(value, list) and len(value) < rule:
            yield f"{place}: fewer than {rule}"

    def _uniqueItems(self, value, rule, rules, place):
        if rule and isinstance(value, list) and len({json.dumps(one, sort_keys=True) for one in value}) < len(value):
            yield f"{place}: the same twice"

    def _minLength(self, value, rule, rules, place):
        if isinstance(value, str) and len(value) < rule:
            yield f"{place}: shorter than {rule}"

    def _minimum(self, value, rule, rules, place):
        if isinstance(value, (int, float)) and value < rule:
            yield f"{place}: below {rule}"

    def _pattern(self, value, rule, rules, place):
        if isinstance(value, str) and not re.search(rule, value):
            yield f"{place}: not {rule}"

    def _format(self, value, rule, rules, place):
        if isinstance(value, str) and not _FORMATS[rule].fullmatch(value):
            yield f"{place}: no {rule}: {value}"

    def _anyOf(self, value, rule, rules, place):
        if all(list(self.faults(value, one, place)) for one in rule):
            yield f"{place}: none of the {len(rule)} ways"

    def _allOf(self, value, rule, rules, place):
        for one in rule:
            yield from self.faults(value, one, place)

    def _if(self, value, rule, rules, place):
        if not list(self.faults(value, rule, place)):
            yield from self.faults(value, rules["then"], place)
