"""How products and match strings become entries and deprecations."""
import json
import unittest

from recipe_case import RecipeCase

from cpe_recipes import dictionary
from cpe_recipes.console import Fatal


def product(name, **members):
    return {"cpe": {"cpeName": name, "cpeNameId": f"id of {name}", **members}}


class Feeds(RecipeCase):
    def records(self, *feeds):
        paths = [self.file(f"{number}.json", feed) for number, feed in enumerate(feeds, 1)]
        return [
            (one.id, json.loads(one.record) if one.record else one.reason) for one in dictionary.candidates_of(paths, self.messages)
        ]

    def products(self, *products):
        return [told for _, told in self.records({"products": list(products)})]

    def test_an_entry_has_its_english_title_and_its_day(self):
        titles = [{"title": "Eins", "lang": "de"}, {"title": "One", "lang": "en"}]
        told = self.products(
            product("x", created="2024-01-02T03:04", titles=titles), product("y", titles=titles[:1]), product("z", titles=[])
        )
        self.assertEqual(
            told,
            [
                {
                    "do": "entry",
                    "name": "x",
                    "title": "One",
                    "provenance": {"changes": [{"kind": "ORIGINAL_RECORD", "date": "2024-01-02"}]},
                },
                {"do": "entry", "name": "y", "title": "Eins"},
                {"do": "entry", "name": "z"},
            ],
        )

    def test_kinds_of_deprecations_come_behind_all_entries(self):
        old = {"deprecated": True, "lastModified": "2024-01-02T03:04"}
        told = self.products(
            product("a", **old),
            product("b", deprecatedBy=[{"cpeName": "x"}], **old),
            product("c", deprecatedBy=[{"cpeName": "x"}, {"cpeName": "x"}], **old),
            product("x", deprecates=[{"cpeName": "c"}]),
            product("y", deprecates=[{"cpeName": "c"}]),
        )
        self.assertEqual([one["do"] for one in told], ["entry"] * 5 + ["deprecate"] * 3)
        self.assertEqual(
            [(one["name"], one["kind"], one.get("successors")) for one in told[5:]],
            [("a", "NAME_REMOVAL", None), ("b", "NAME_CORRECTION", ["x"]), ("c", "ADDITIONAL_INFORMATION", ["x", "y"])],
        )

    def test_a_deprecation_of_which_only_the_new_product_tells(self):
        told = self.records({"products": [product("x", deprecates=[{"cpeName": "old"}])]})
        self.assertEqual(told[-1], ("old", "no deprecated product here, though said to be deprecated by x"))

    def test_a_successor_that_comes_on_another_page(self):
        told = self.records(
            {"products": [product("x", deprecates=[{"cpeName": "old"}])]},
            {"products": [product("old", deprecated=True, created="2024-01-02")]},
        )
        self.assertEqual(
            [(id, one["do"]) for id, one in told], [("id of x", "entry"), ("id of old", "entry"), ("id of old", "deprecate")]
        )
        self.assertEqual(
            told[-1][1], {"do": "deprecate", "name": "old", "kind": "NAME_CORRECTION", "successors": ["x"], "date": "2024-01-02"}
        )

    def test_records_of_another_form_are_told_by_their_place(self):
        bad = [7, {"cpe": 7}, {}, product("x", titles=7), product("x", titles=[7]), product("x", deprecates=["x"])]
        told = self.records({"products": bad})
        self.assertEqual([reason for _, reason in told], ["not of the published form"] * len(bad))
        self.assertEqual(
            [id for id, _ in told], ["product 1 of 1.json", "product 2 of 1.json", "product 3 of 1.json"] + ["id of x"] * 3
        )

    def test_matches_are_entries(self):
        told = self.records(
            {
                "matchStrings": [
                    {"matchString": {"matchCriteriaId": "m", "matches": [{"cpeName": "x"}]}},
                    {"matchString": {"matchCriteriaId": "n"}},
                    {"matchString": {"matchCriteriaId": "o", "matches": ["x"]}},
                ]
            }
        )
        self.assertEqual(told, [("m", {"do": "entry", "name": "x"}), ("o", "not of the published form")])

    def test_a_feed_without_records(self):
        self.assertEqual(len(self.records({"products": [], "totalResults": 0}, {"products": [product("x")], "totalResults": 1})), 1)
        self.assertEqual(self.messages.told, ["remark 1.json: no products in it"])
        with self.assertRaises(Fatal) as caught:
            self.records({"matchStrings": []})
        self.assertEqual(str(caught.exception), "1.json: no matchStrings in it")


if __name__ == "__main__":
    unittest.main()
