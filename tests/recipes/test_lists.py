"""The lists beside the verdicts: items without an entry, and items that perhaps are the product of an advisory; and the
advisories that can concern the machines."""
import json
import unittest

from recipe_case import RecipeCase, fs, needs_cpe

from cpe_recipes.program import Program


def entry(name):
    return {"do": "entry", "name": name}


def deprecate(name, *successors):
    kind = ("NAME_REMOVAL", "NAME_CORRECTION", "ADDITIONAL_INFORMATION")[min(len(successors), 2)]
    named = {"successors": list(successors)} if successors else {}
    return {"do": "deprecate", "name": name, "kind": kind, **named, "date": "2024-01-02"}


def statement(id, *facts, mode="follow", **members):
    return {
        "do": "statement",
        "id": id,
        "mode": mode,
        "test": {"op": "OR", "of": [{"op": "AND", "of": [{"fact": fact}]} for fact in facts], **members},
    }


REDIS = fs("redis", "redis", "6.0")
OLD_REDIS = fs("redislabs", "redis", "6.0")
GONE = fs("sun", "mysql", "5.1")
DICTIONARY = [
    entry(REDIS),
    entry(OLD_REDIS),
    entry(fs("redislabs", "redis", "6.1")),
    entry(fs("redis", "redis", "6.1")),
    entry(GONE),
    entry(fs("v", "p", "1")),
    entry(fs("v", "p", "2")),
    entry("cpe:/a:v:q:1"),
    deprecate(OLD_REDIS, REDIS),
    deprecate("CPE:/A:RedisLabs:Redis:6.1", fs("redis", "redis", "6.1")),
    deprecate(GONE),
    deprecate(fs("v", "p", "1"), fs("v", "p", "2"), "cpe:/a:v:q:1"),
]


@needs_cpe
class Unlisted(RecipeCase):
    def unlisted(self, records, machines):
        return self.recipe("unlisted", self.file("records", records), self.file("machines", machines))

    def test_items_that_no_entry_has(self):
        machines = f"m {REDIS} {OLD_REDIS} cpe:/a:RedisLabs:Redis:7 {fs('v', 'p', '3')} {fs('x', 'y')}\nn {GONE} cpe:/a:x%zz\n"
        status, lines, said = self.unlisted(DICTIONARY, machines)
        self.assertEqual(
            lines,
            [
                "not in the dictionary m cpe:/a:RedisLabs:Redis:7 now called redis:redis",
                f"not in the dictionary m {fs('v', 'p', '3')} now called v:q",
                f"not in the dictionary m {fs('x', 'y')}",
                f"under a removed name n {GONE}",
            ],
        )
        self.assertEqual((status, said), (1, ["left out n cpe:/a:x%zz: name name 9"]))

    def test_a_name_that_was_restored_leads_nowhere_else(self):
        records = [
            *DICTIONARY,
            {"do": "restore", "name": OLD_REDIS, "date": "2024-01-02"},
            {"do": "restore", "name": fs("redislabs", "redis", "6.1"), "date": "2024-01-02"},
        ]
        self.assertEqual(
            self.unlisted(records, f"m {fs('redislabs', 'redis', '7')}\n")[1],
            [f"not in the dictionary m {fs('redislabs', 'redis', '7')}"],
        )

    def test_machines_without_items(self):
        status, lines, said = self.unlisted(DICTIONARY, "m\nn cpe:/a:x%zz\n")
        self.assertEqual(
            (status, lines, said),
            (1, [], ["left out m: no items", "left out n cpe:/a:x%zz: name name 9", "left out n: no items"]),
        )


@needs_cpe
class Perhaps(RecipeCase):
    def perhaps(self, records, *items):
        status, lines, said = self.recipe(
            "perhaps", self.file("records", records), self.file("machines", f"m {' '.join(items)}\n")
        )
        self.assertEqual(said, [])
        return [line.removeprefix("perhaps m ") for line in lines]

    def test_items_that_know_less(self):
        facts = [
            fs("apache", "log4j", "2.0", "-"),
            fs("apache", "log4j", "2.0", "beta9"),
            fs("apache", "log4j", "2.1", "-"),
            fs("apache", "log4j"),
            fs("apache", "log4j", "2.0"),
            fs("apache", "log4j", "2.*", "-"),
            fs("apache", "*", "2.0", "-"),
            fs("apache", "log4net", "2.0", "-"),
        ]
        item = fs("apache", "log4j", "2.0")
        self.assertEqual(self.perhaps([statement("s", *facts)], item), [f"s {item} {facts[0]}", f"s {item} {facts[1]}"])
        self.assertEqual(
            self.perhaps([statement("s", *facts)], "cpe:/a:Apache:Log4j"),
            [f"s cpe:/a:Apache:Log4j {fact}" for fact in (*facts[:3], *facts[4:6])],
        )

    def test_a_target_platform(self):
        fact, item = fs("v", "plugin", "*", "*", "wordpress"), fs("v", "plugin")
        self.assertEqual(self.perhaps([statement("s", fact)], item, fs("v", "plugin", "1.0")), [f"s {item} {fact}"])

    def test_a_range_is_compared_in_the_version_of_the_item(self):
        fact, item = fs("v", "plugin", "*", "*", "wordpress"), "cpe:/a:v:plugin:"
        check = {"check": {"system": "NVD", "href": "cpeMatch", "id": "key"}}
        records = self.file(
            "records",
            [
                {
                    "do": "statement",
                    "id": "s",
                    "mode": "follow",
                    "test": {"op": "OR", "of": [{"op": "AND", "of": [{"fact": fact}, check]}]},
                }
            ],
        )
        ranges = self.file("ranges", [{"do": "advisory", "id": "key", "name": fact, "end": "1.2", "end-excluded": True}])
        on_site = fs("v", "plugin", "1.0", "*", "wordpress")
        machines = self.file(
            "machines",
            f"m {item}1.1 {item}1.2 {item}1.2k {item}- cpe:/a:v:plugin {on_site} {fs('v', 'plugin', '1.1', '*', 'drupal')}\n",
        )
        self.assertEqual(self.recipe("perhaps", records, machines), (0, [f"perhaps m s cpe:/a:v:plugin {fact}"], []))
        wanted = [f"perhaps m s {name} {fact}" for name in (f"{item}1.1", f"{item}1.2k", f"{item}-", "cpe:/a:v:plugin")]
        self.assertEqual(self.recipe("perhaps", records, machines, "--ranges", ranges), (0, wanted, []))

    def test_statements_and_machines_in_their_order_each_pair_once(self):
        fact, other = fs("v", "p", "1"), fs("v", "p", "2")
        records = [
            'no JSON with "statement"',
            statement("b", fact, fact),
            statement("a", other),
            statement("a#2", other, negate=True),
            statement("z#1", other),
            {"do": "statement", "id": 7},
        ]
        text = "".join(f"{one if isinstance(one, str) else json.dumps(one)}\n" for one in records)
        self.assertEqual(
            self.perhaps(text, "cpe:/a:v:p", "cpe:/a:v:p"),
            [f"b cpe:/a:v:p {fact}", f"a cpe:/a:v:p {other}", f"z#1 cpe:/a:v:p {other}"],
        )

    def test_names_are_compared_where_they_lead(self):
        fact, old = fs("redis", "redis", "6.0", "-"), fs("redislabs", "redis", "6.0")
        follows, plain = statement("f", fact), statement("p", fact, mode="plain")
        self.assertEqual(
            self.perhaps([*DICTIONARY, follows, plain], old, REDIS), [f"f {old} {fact}", f"f {REDIS} {fact}", f"p {REDIS} {fact}"]
        )

    def test_no_statements_are_refused(self):
        status, lines, said = self.recipe("perhaps", self.file("records", DICTIONARY), self.file("machines", "m cpe:/a:v:p\n"))
        self.assertEqual((status, lines, said), (2, [], ["perhaps.sh: no facts of statements in the records"]))


def match(name, vulnerable=True, **bounds):
    return {"criteria": name, "vulnerable": vulnerable, **bounds}


def cve(id, *matches, **members):
    return {
        "cve": {
            "id": id,
            "vulnStatus": "Analyzed",
            "configurations": [{"nodes": [{"operator": "OR", "cpeMatch": list(matches)}]}],
            **members,
        }
    }


@needs_cpe
class Products(RecipeCase):
    FEED = [
        cve("listed", match(fs("v", "p"), versionEndExcluding="2")),
        cve("other", match(fs("v", "other"))),
        cve("one-of-two", match(fs("v", "other")), match("cpe:2.3:o:v:p:*:*:*:*:*:*:*:*")),
        cve("beside", match(fs("v", "other")), match(fs("v", "p"), vulnerable=False)),
        cve("pattern", match(fs("v", "p*"))),
        cve("any", match(fs("*", "p"))),
        cve("bad", match(fs("v", "no name"))),
        cve("case", match(fs("V", "P"))),
        cve("successor", match(fs("redis", "redis", "6.0"))),
        cve("predecessor", match(fs("redislabs", "redis"))),
        cve("nothing-vulnerable", match(fs("v", "other"), vulnerable=False)),
        cve("awaiting", configurations=[]),
        cve("odd", configurations=[{"nodes": 7}]),
        cve("rejected", match(fs("v", "p")), vulnStatus="Rejected"),
        7,
    ]

    def products(self, machines, *words):
        feed = self.file("feed.json", {"totalResults": len(self.FEED), "vulnerabilities": self.FEED})
        status, lines, said = self.recipe("products", "--machines", self.file("machines", machines), *words, feed)
        kept = json.loads("\n".join(lines))["vulnerabilities"] if lines else None
        return status, kept and [one["cve"]["id"] if isinstance(one, dict) else one for one in kept], said

    def test_advisories_of_the_products_that_are_here(self):
        always = ["pattern", "any", "bad", "nothing-vulnerable", "awaiting", "odd", 7]
        status, kept, said = self.products("m cpe:/a:v:p:1\n")
        self.assertEqual(set(map(str, kept)), set(map(str, ["listed", "one-of-two", "case", *always])))
        told = ["remark 9 of 15 advisories may concern a product of these machines", "remark not analysed: 1 advisory"]
        self.assertEqual((status, said), (0, told))
        self.assertEqual(kept, [one for one in [*(it["cve"]["id"] for it in self.FEED[:-1]), 7] if one in kept])
        self.assertEqual(self.products("m cpe:/a:x:y\n")[1], always)

    def test_products_by_the_dictionary(self):
        records = ["--records", self.file("records", DICTIONARY)]
        for item in (OLD_REDIS, REDIS, fs("redis", "redis", "9"), fs("redislabs", "redis", "9")):
            kept = self.products(f"m {item}\n", *records)[1]
            self.assertTrue({"successor", "predecessor"} <= set(kept), item)
        self.assertNotIn("successor", self.products(f"m {OLD_REDIS}\n")[1])

    def test_verdicts_are_those_of_the_whole_feed(self):
        feed = self.file("whole.json", {"vulnerabilities": self.FEED[:-1]})
        machines = f"m cpe:/a:v:p:1\nn {OLD_REDIS}\n"
        records = self.file("records", DICTIONARY)
        status, lines, _ = self.recipe("products", "--machines", self.file("machines", machines), "--records", records, feed)
        whole = self.recipe("advisories", feed)[1]
        kept = self.recipe("advisories", self.file("kept.json", "\n".join(lines)))[1]
        self.assertLess(len(kept), len(whole))
        for item in ("cpe:/a:v:p:1", OLD_REDIS):
            evaluated = [self.evaluated(statements, item) for statements in (whole, kept)]
            self.assertEqual(
                {id: truth for id, truth in evaluated[0].items() if truth != "FALSE"},
                {id: truth for id, truth in evaluated[1].items() if truth != "FALSE"},
            )

    def evaluated(self, statements, item):
        lines = [json.dumps(one) for one in DICTIONARY] + statements + [json.dumps({"do": "item", "name": item})]
        return dict(line.split(" ")[1:] for line in Program().run(["evaluate"], lines) if line.startswith("verdict "))

    def test_what_has_no_result(self):
        self.assertEqual(self.products("m\n")[::2], (2, ["left out m: no items", "products.sh: no machine has an item"]))
        self.assertEqual(self.recipe("products", "feed.json")[0], 2)


if __name__ == "__main__":
    unittest.main()
