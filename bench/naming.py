"""How many packages get the right name first: python3 bench/naming.py [--all]

It uses 976 packages of Debian, PyPI and npm whose product of NVD is known by hand (tests/recipes/naming/), and a
dictionary with these products and others. The recipes' own code names the packages. It prints how many are right: in
all, by kind, of those that names.txt has and hasn't, and by the dictionary alone. With --all it prints the packages
that are wrong, with the first name of each.
"""
import sys
from pathlib import Path

sys.path.insert(0, str(Path(__file__).resolve().parents[1] / "tests" / "recipes"))

import naming_truth as truth  # noqa: E402


def main(words):
    some, dictionary, tables = truth.packages(), list(truth.records()), truth.tables_that_come_along()
    listed = [one for one in some if truth.is_listed(one, tables)]
    others = [one for one in some if not truth.is_listed(one, tables)]
    kinds = sorted({one.component().kind for one in some})
    rows = [("all", some, tables)]
    rows += [(kind, [one for one in some if one.component().kind == kind], tables) for kind in kinds]
    rows += [("in names.txt", listed, tables), ("not in names.txt", others, tables)]
    rows += [(f"not in names.txt, {kind}", [one for one in others if one.component().kind == kind], tables) for kind in kinds]
    rows += [("not in names.txt, that NVD has", [one for one in others if one.products], tables)]
    rows += [("not in names.txt, of several candidates", truth.of_several(others, tables, dictionary), tables)]
    rows += [("without source packages", [one.without_source() for one in some], tables)]
    rows += [("without names.txt", some, truth.NO_TABLES)]
    for what, packages, by in rows:
        counted = truth.count(packages, by, dictionary)
        print(f"{what}: {counted.words()}")
        if "--all" in words:
            for one, first in counted.others:
                print(f"    {one.purl} is {' or '.join(one.products) or 'none'}, and first is {first or 'none'}")
    return 0


if __name__ == "__main__":
    sys.exit(main(sys.argv[1:]))
