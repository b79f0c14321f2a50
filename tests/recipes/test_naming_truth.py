"""Four of five packages get the right name first, of those whose product is known by hand, with names.txt and without
it."""
import unittest
from collections import Counter

import naming_truth as truth

from cpe_recipes import package_urls
from cpe_recipes.purls import parse

# The share that has to be right.
LEAST = 0.8


class NamesThatComeFirst(unittest.TestCase):
    @classmethod
    def setUpClass(cls):
        cls.packages, cls.dictionary, cls.tables = truth.packages(), list(truth.records()), truth.tables_that_come_along()

    def judge(self, packages, tables):
        counted = truth.count(packages, tables, self.dictionary)
        wrong = "; ".join(f"{one.purl}: {first or 'none'}" for one, first in counted.others[:5])
        self.assertGreaterEqual(counted.share(), LEAST, f"{counted.words()}: {wrong}")

    def test_of_all(self):
        self.judge(self.packages, self.tables)

    def test_of_each_kind(self):
        for kind in ("deb", "npm", "pypi"):
            with self.subTest(kind):
                self.judge([one for one in self.packages if one.component().kind == kind], self.tables)

    def test_of_those_that_names_txt_does_not_have(self):
        others = [one for one in self.packages if not truth.is_listed(one, self.tables)]
        self.assertGreater(len(others), 200)
        self.judge(others, self.tables)
        self.judge([one for one in others if one.products], self.tables)

    def test_by_the_dictionary_alone(self):
        self.judge(self.packages, truth.NO_TABLES)

    def test_of_lists_that_do_not_say_source_packages(self):
        self.judge([one.without_source() for one in self.packages], self.tables)


class Truth(unittest.TestCase):
    """The packages and the dictionary are as described."""

    def test_packages(self):
        packages = truth.packages()
        kinds = Counter(one.component().kind for one in packages)
        self.assertGreaterEqual(kinds["deb"], 500)
        self.assertGreaterEqual(kinds["pypi"] + kinds["npm"], 300)
        self.assertEqual([one.purl for one in packages], [parse(one.purl).text() for one in packages])
        self.assertEqual(len({package_urls.read(one.purl).package for one in packages}), len(packages))

    def test_products_and_others(self):
        right = {product for one in truth.packages() for product in one.products}
        first = {one.products[0] for one in truth.packages() if one.products}
        listed = [line.split()[0] for line in truth._lines("dictionary.txt")]
        self.assertEqual(len(set(listed)), len(listed))
        self.assertEqual(first - set(listed), set())
        self.assertGreaterEqual(len(set(listed) - right), len(set(listed) & right))


if __name__ == "__main__":
    unittest.main()
