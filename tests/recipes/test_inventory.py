"""How software lists become items."""
import unittest

from recipe_case import RecipeCase, needs_cpe

from cpe_recipes import inventory, lists
from cpe_recipes.console import Fatal
from cpe_recipes.feeds import FeedFault

ITEM = '{"do":"item","name":"%s"}'


class Lists(RecipeCase):
    def items(self, text, feed="list"):
        return [(one.id, one.record or one.reason) for one in inventory.candidates_of(lists.read(feed, text.encode()))]

    def refused(self, text):
        with self.assertRaises(FeedFault) as caught:
            self.items(text)
        return str(caught.exception)

    def test_components_in_components_in_their_order(self):
        text = """{"bomFormat":"CycloneDX","specVersion":"1.6",
            "metadata":{"component":{"components":[{"bom-ref":"x","cpe":"cpe:/a:x"}]}},
            "components":[{"group":"g","name":"a","components":[{"name":"b","version":"1","cpe":"cpe:/a:b"}]},{"cpe":""}, 7]}"""
        self.assertEqual(
            self.items(text),
            [
                ("x", ITEM % "cpe:/a:x"),
                ("g a", "no CPE name"),
                ("b 1", ITEM % "cpe:/a:b"),
                ("component 4 of list", "no CPE name"),
                ("component 5 of list", "not of the published form"),
            ],
        )

    def test_components_that_are_nested_deep(self):
        depth = 400
        text = '{"bomFormat":"CycloneDX","components":[' + '{"components":[' * depth + '{"cpe":"cpe:/a:x"}' + "]}" * depth + "]}"
        self.assertEqual(self.items(text)[-1], (f"component {depth + 1} of list", ITEM % "cpe:/a:x"))

    def test_both_types_of_names_of_a_package(self):
        text = """{"spdxVersion":"SPDX-2.2","packages":[{"SPDXID":"p","externalRefs":[
            {"referenceType":"cpe22Type","referenceLocator":"cpe:/a:x"},{"referenceType":"purl","referenceLocator":"pkg:npm/x"},
            {"referenceType":"http://spdx.org/rdf/references/cpe23Type","referenceLocator":7}]},
            {"SPDXID":"q"},{"SPDXID":"r","externalRefs":7}]}"""
        self.assertEqual(
            self.items(text),
            [("p", ITEM % "cpe:/a:x"), ("p", "the locator of a reference is no text"), ("q", "no CPE name"), ("r", "its externalRefs are no list")],
        )

    def test_a_plain_list(self):
        text = "\ufeff# of web-1\r\n\r\n  cpe:/a:x # a comment\r\ncpe:2.3:a:v:c\\#:1:*:*:*:*:*:*:*\r\nopenssl\n"
        self.assertEqual(
            self.items(text),
            [
                ("line 3 of list", ITEM % "cpe:/a:x"),
                ("line 4 of list", ITEM % "cpe:2.3:a:v:c\\\\#:1:*:*:*:*:*:*:*"),
                ("line 5 of list", ITEM % "openssl"),
            ],
        )

    def test_lists_of_another_form_are_named(self):
        forms = {
            "": "it is empty",
            " \n": "it is empty",
            '<?xml version="1.0"?><bom xmlns="http://cyclonedx.org/schema/bom/1.4"/>': "XML is not read",
            '{"@context":"https://spdx.org/rdf/3.0.1/spdx-context.jsonld"}': "it has no @graph",
            '{"@context":"https://spdx.org/rdf/3.0.1/spdx-context.jsonld","@graph":{}}': "its @graph are no list",
            '{"descriptor":{"name":"syft"}}': "it has no artifacts",
            '{"descriptor":{"name":"syft"},"artifacts":7}': "its artifacts are no list",
            '{"SchemaVersion":2,"ArtifactName":"x"}': "it has no Results",
            '{"SchemaVersion":2,"Results":"x"}': "its Results are no list",
            '{"SchemaVersion":2,"Results":[{"Class":"os-pkgs","Vulnerabilities":[]}]}': "it has no Packages: run trivy",
            '{"descriptor":{"name":"grype"},"matches":[]}': "neither CycloneDX nor SPDX",
            '{"spdxVersion":"SPDX-3.0","packages":[]}': "SPDX-3.0 is not read",
            '{"bomFormat":"CycloneDX","specVersion":"2.0","components":[]}': "CycloneDX 2.0 is not read",
            '{"bomFormat":"CycloneDX","components":7}': "its components are no list",
            '{"spdxVersion":"SPDX-2.3","packages":{}}': "its packages are no list",
            '{"artifacts":[]}': "neither CycloneDX nor SPDX",
            "[]": "no software list",
            "SPDXVersion: SPDX-2.3\n": "no software list",
            '{"bomFormat":"CycloneDX"': "no JSON",
        }
        for text, reason in forms.items():
            self.assertEqual(self.refused(text)[: len(reason)], reason, text)

    def test_a_list_without_an_item_is_said_beside_others(self):
        paths = [self.file("one", "cpe:/a:x\n"), self.file("two", "# none\n"), self.file("three", "<bom/>")]
        self.assertEqual([one.record for one in inventory.read_lists(paths, self.messages)], [ITEM % "cpe:/a:x"])
        self.assertEqual(self.messages.told[0], "left out two: no item in it")
        self.assertTrue(self.messages.told[1].startswith("left out three: XML is not read"))

    def test_no_item_at_all_is_fatal(self):
        path = self.file("one", '{"spdxVersion":"SPDX-2.3","packages":[{"SPDXID":"q"}]}')
        with self.assertRaises(Fatal) as caught:
            inventory.read_lists([path], self.messages)
        self.assertEqual(str(caught.exception), "one: no item in it")
        self.assertEqual(self.messages.told, ["left out q: no CPE name"])

    @needs_cpe
    def test_where_all_items_are_refused_nothing_is_written(self):
        status, lines, said = self.recipe("inventory", self.file("list", "cpe:/a:%02\n"))
        self.assertEqual((status, lines), (2, []))
        self.assertEqual(
            said,
            ['left out line 1 of list: name name 10: {"do":"item","name":"cpe:/a:%02"}', "inventory.sh: no item in any of these"],
        )

    @needs_cpe
    def test_a_name_that_is_known_in_part_is_an_item(self):
        status, lines, said = self.recipe("inventory", self.file("list", "cpe:/a:x:y:1.%02\ncpe:2.3:a:X:Y:1.*:*:*:*:*:*:*:*\n"))
        self.assertEqual((status, lines, said), (0, [ITEM % "cpe:/a:x:y:1.%02"], []))

    @needs_cpe
    def test_a_file_whose_name_begins_with_a_hyphen(self):
        self.file("-list", "cpe:/a:x\n")
        self.assertEqual(self.recipe("inventory", "-list", cwd=self.folder), (0, [ITEM % "cpe:/a:x"], []))


if __name__ == "__main__":
    unittest.main()
