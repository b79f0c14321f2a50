"""Tests of the cases: their form and ids, and that each character and each cell of a table has cases that it alone
decides."""

import itertools
import json
import re
import unittest

import conformance
import json_schema
import make_cases
from conformance import CASES, SUITE
from sources.cases import QUOTED_IN_NAMES, QUOTED_IN_TEXTS


def failing(model, cases):
    return [it for it in cases if not conformance.is_passed(model, it)]


class Form(unittest.TestCase):
    def test_each_case_has_the_form_of_the_schema(self):
        root = json.loads((SUITE / "case.schema.json").read_text())
        faults = [(it["id"], fault) for it in CASES for fault in json_schema.faults_by(it, root)]
        self.assertEqual(faults, [])

    def test_the_schema_refuses_other_forms(self):
        root = json.loads((SUITE / "case.schema.json").read_text())
        case = next(it for it in CASES if it["kind"] == "unbind-fs" and "name" in it["expect"])
        for wrong in (
            {"own": 1},
            {"kind": "unbind"},
            {"id": "x"},
            {"expect": {}},
            {"input": {}},
            {"expect": {"name": {"vendors": "v"}}},
            {"note": ""},
        ):
            self.assertTrue(list(json_schema.faults_by(case | wrong, root)), wrong)

    def test_there_are_enough_and_each_section_has_some(self):
        self.assertGreaterEqual(sum(not it["own"] for it in CASES), 1500)
        sections = {(it["report"], it["section"]) for it in CASES if not it["own"]}
        wanted = {("7695", it) for it in ("5.3", "6.1.1", "6.1.2", "6.1.3", "6.2.1", "6.2.2", "6.2.3")} | {("7696", "6.2"), ("7696", "6.3")}
        self.assertLessEqual(wanted, sections)
        self.assertEqual({report for report, _ in sections}, {"7695", "7696", "7697", "7698"})

    def test_the_example_of_the_page_is_a_case(self):
        page = (SUITE / "README.md").read_text(encoding="utf-8")
        example = next(json.loads(line) for line in page.splitlines() if line.startswith('    {"id"'))
        self.assertIn(example, CASES)

    def test_refused_texts_have_places_within_them(self):
        for it in CASES:
            if it["kind"].startswith("unbind") and "refused" in it["expect"]:
                self.assertIn(it["expect"]["place"], range(len(it["input"]["text"].encode()) + 1), it["id"])

    def test_the_model_answers_each_case_right(self):
        model = conformance.made()
        self.assertEqual([it["id"] for it in failing(model, CASES)], [])


class Meaning(unittest.TestCase):
    def setUp(self):
        self.records = [it for it in CASES if it["report"] == "7697"]
        self.kept = make_cases.lines(self.records)

    def changes(self, records):
        return list(make_cases.changed_meanings(self.kept, records))

    def test_the_same_cases_and_more_of_them_keep_their_meaning(self):
        self.assertEqual(self.changes(self.records), [])
        more = self.records[0] | {"id": "new-001"}
        self.assertEqual(self.changes([more, *self.records]), [])

    def test_what_is_expected_and_the_section_may_be_corrected(self):
        corrected = self.records[0] | {"expect": {"accepted": False}, "section": "another", "why": "other"}
        self.assertEqual(self.changes([corrected, *self.records[1:]]), [])

    def test_a_missing_case_and_another_input_are_found(self):
        self.assertEqual(self.changes(self.records[1:]), [f"{self.records[0]['id']} is missing"])
        other = self.records[0] | {"input": {"text": "cpe:2.3:a:other"}}
        self.assertEqual(self.changes([other, *self.records[1:]]), [f"{other['id']} would mean something else"])

    def test_cases_are_what_the_sources_make(self):
        for name, records in make_cases.made().items():
            self.assertEqual((SUITE / "cases" / name).read_text(encoding="utf-8"), make_cases.lines(records), name)


class Patterns(unittest.TestCase):
    """Texts of names against the patterns of cpe-naming_2.3.xsd, the schema that NIST published with the reports."""

    # (of cpe23Type, and of cpe22Type)
    TEXT = r"((\?*|\*?)([a-zA-Z0-9\-\._]|(\\[\\\*\?!\"#$%&'\(\)\+,/:;<=>@\[\]\^`\{\|}~]))+(\?*|\*?))|[\*\-]"
    LANGUAGE = r"([a-zA-Z]{2,3}(-([a-zA-Z]{2}|[0-9]{3}))?)|[\*\-]"
    FORMATTED_STRING = re.compile(rf"cpe:2\.3:[aho\*\-](:({TEXT})){{5}}(:({LANGUAGE}))(:({TEXT})){{4}}")
    URI = re.compile(r"[cC][pP][eE]:/[AHOaho]?(:[A-Za-z0-9\._\-~%]*){0,6}")

    def test_formatted_strings_are_those_of_the_pattern(self):
        for it in conformance.of_kinds("unbind-fs"):
            is_name = bool(self.FORMATTED_STRING.fullmatch(it["input"]["text"]))
            self.assertEqual(is_name, "name" in it["expect"], it["id"])

    def test_written_formatted_strings_have_the_pattern(self):
        for it in conformance.of_kinds("bind-fs"):
            if "text" in it["expect"]:
                self.assertTrue(self.FORMATTED_STRING.fullmatch(it["expect"]["text"]), it["id"])

    def test_uris_have_the_pattern(self):
        # (it allows any text after a percent sign, and not the part NA)
        for it in conformance.of_kinds("unbind-uri", "bind-uri"):
            text = it["input"].get("text") or it["expect"].get("text")
            if "refused" not in it["expect"] and not text.startswith("cpe:/-"):
                self.assertTrue(self.URI.fullmatch(text), it["id"])

    def test_texts_that_the_grammar_of_uris_refuses_have_not_the_pattern(self):
        for it in CASES:
            if it["id"].startswith("uri-refuse-text"):
                self.assertFalse(self.URI.fullmatch(it["input"]["text"]), it["id"])


class Clauses(unittest.TestCase):
    """Each clause is changed alone in the model: then cases fail, and only those that are about it."""

    def test_each_quoted_character_of_a_formatted_string(self):
        for it in QUOTED_IN_TEXTS:
            model = conformance.made()
            right = model["value_of_fs"]

            def without(component, right=right, it=it, model=model):
                if "\\" + it in model["characters"](component):
                    raise model["Refused"]
                return right(component)

            model["value_of_fs"] = without
            found = failing(model, conformance.of_kinds("unbind-fs"))
            self.assertTrue(found, it)
            self.assertEqual([each["id"] for each in found if it not in each["input"]["text"]], [], it)

    def test_each_character_that_is_written_in_a_binding(self):
        for kind, call in (("bind-fs", "component_of_fs"), ("bind-uri", "component_of_uri")):
            for it in QUOTED_IN_NAMES:
                model = conformance.made()
                right = model[call]
                characters = model["characters"]
                model[call] = lambda value, right=right, it=it, of=characters: right(value) + (
                    "?" if value and "\\" + it in of(value) else ""
                )
                found = failing(model, conformance.of_kinds(kind))
                self.assertTrue(found, (kind, it))
                self.assertTrue(
                    all(any("\\" + it in (value or "") for value in each["input"]["name"].values()) for each in found), (kind, it)
                )

    def test_each_percent_form(self):
        for it in QUOTED_IN_TEXTS:
            model = conformance.made()
            right = model["value_of_uri"]
            form = f"%{ord(it):02x}"

            def without(component, right=right, form=form, model=model):
                if form in component:
                    raise model["Refused"]
                return right(component)

            model["value_of_uri"] = without
            found = [each for each in failing(model, conformance.of_kinds("unbind-uri")) if not each["own"]]
            self.assertTrue(found, it)
            self.assertEqual([each["id"] for each in found if form not in each["input"]["text"]], [], it)

    def test_each_cell_of_the_table_of_values(self):
        kinds = ("ANY", "NA", "text", "special")
        for source, target in itertools.product(kinds, repeat=2):
            model = conformance.made()
            right = model["relate"]

            def kind_of(value, model=model):
                known = {model["ANY"]: "ANY", model["NA"]: "NA"}
                return known.get(value) or ("special" if model["has_special"](value) else "text")

            def other(one, two, right=right, kind_of=kind_of, cell=(source, target)):
                return "none" if (kind_of(one), kind_of(two)) == cell else right(one, two)

            model["relate"] = other
            found = [each for each in failing(model, conformance.of_kinds("relate-values")) if not each["own"]]
            self.assertTrue(found, (source, target))
            self.assertEqual({each["section"] for each in found}, {"6.2"})

    def test_each_attribute_decides_alone_between_names(self):
        for attribute in conformance.made()["ATTRIBUTES"]:
            model = conformance.made()
            model["relations"] = lambda source, target, attribute=attribute, model=model: [
                model["relate"](source[it], target[it]) for it in model["ATTRIBUTES"] if it != attribute
            ]
            found = [each for each in failing(model, conformance.of_kinds("relate-names")) if not each["own"]]
            self.assertTrue(found, attribute)

    def test_each_cell_of_the_tables_of_truths(self):
        for op in ("AND", "OR"):
            for pair in itertools.combinations_with_replacement(("TRUE", "FALSE", "ERROR", "UNKNOWN"), 2):
                model = conformance.made()
                right = model["joined"]

                def other(at, truths, right=right, cell=(op, sorted(pair))):
                    return "none" if (at, sorted(truths)) == cell else right(at, truths)

                model["joined"] = other
                found = failing(model, conformance.of_kinds("evaluate"))
                self.assertIn("truths", {each["section"] for each in found}, (op, pair))


if __name__ == "__main__":
    unittest.main()
