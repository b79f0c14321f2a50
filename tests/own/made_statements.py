"""Statements over items and over results of checks, and what is written of their verdicts."""
from made import MadeInput, fs, record

# Each truth by its first letter. AND and OR write the first of their order that a child has.
WORDS = {"T": "TRUE", "F": "FALSE", "E": "ERROR", "U": "UNKNOWN"}
AND, OR = "FEUT", "TEUF"
RESULTS = ("TRUE", "FALSE", "ERROR", "UNKNOWN")


def key_of(id: object) -> dict:
    """The key of the result of a check."""
    return {"system": "oval", "href": "defs.xml", "id": f"c{id}"}


def uri_of(n: int) -> str:
    return f"cpe:/a:v:p{n // 100}:{n % 100}"


def name_of(n: int) -> str:
    return fs("a", "v", f"p{n // 100}", str(n % 100))


def combined(order: str, truths: list[str]) -> str:
    return next(one for one in order if one in truths)


def inverted(truth: str) -> str:
    return {"T": "F", "F": "T"}.get(truth, truth)


def truth_of_check(n: int) -> str:
    """The result of one of four checks, of which the last has none."""
    return "TFEU"[n % 4]


def fact_of(n: int) -> dict:
    return {"fact": name_of(n) if n % 3 else uri_of(n)}


def old_fact(n: int) -> dict:
    """A fact of a name that is corrected later."""
    return {"fact": f"cpe:/a:old:p{n}"}


def check_of(n: int) -> dict:
    return {"check": key_of(n % 4)}


def logical(op: str, *children: dict, negate: bool = False) -> dict:
    return {"op": op, **({"negate": True} if negate else {}), "of": list(children)}


class Inventory(MadeInput):
    """So many statements of three facts over twice as many items, the even numbers.

    Some lines are refused, and some rows are removed. One statement in ten follows the correction of a name. The table
    of verdicts comes at the end.
    """

    def __init__(self, count: int) -> None:
        super().__init__()
        self.count = count
        self.are_items_removed = self.are_names_corrected = False
        self.fill()
        self.ask_for_items()
        self.ask_for_verdicts()
        self.correct_names()
        self.ask_for_verdicts()
        self.remove_items()
        self.ask_for_items()
        for n in range(7, count, 50):
            self.put("drop-statement", id=f"s{n}")
        kept = [n for n in range(count) if n % 50 != 7]
        self.ask_for_verdicts(kept)
        self.answer(f"verdicts {len(kept)}", *(f"verdict s{n} {WORDS[self.verdict(n)]}" for n in kept))

    # ---- records

    def named(self, do: str, n: int) -> None:
        self.put(do, name=uri_of(n) if n % 4 else uri_of(n).upper())

    def put_statement(self, n: int) -> None:
        self.put("statement", id=f"s{n}", mode="plain" if n % 10 else "follow", test=self.test_of(n))

    def fill(self) -> None:
        self.put("verdict", id="s0")
        self.answer("verdict s0 absent")
        for n in range(3):
            self.put("check", **key_of(n), result=WORDS[truth_of_check(n)])
        for n in range(2 * self.count):
            self.named("item", 2 * n)
        for n in range(self.count):
            self.put_statement(n)
            if n % 10 == 9:
                self.spoil(n)

    def spoil(self, n: int) -> None:
        """Records that are refused."""
        self.put_statement(n)
        self.refused("exists")
        self.named("item", 2 * n)
        self.refused("exists")
        self.put("entry", name=f"cpe:/a:v:p{n}%02")
        self.refused("wildcards")
        self.named("drop-item", 2 * n + 1)
        self.refused("unknown")
        self.put("drop-statement", id=f"s{n + self.count}")
        self.refused("unknown")
        self.put("drop-check", **key_of(3))
        self.refused("unknown")

    def correct_names(self) -> None:
        for n in range(0, self.count, 10):
            self.put("entry", name=f"cpe:/a:old:p{n}")
            self.named("entry", n)
            corrected = {"kind": "NAME_CORRECTION", "successors": [name_of(n)], "date": "2024-01-01"}
            self.put("deprecate", name=f"cpe:/a:old:p{n}", **corrected)
        self.are_names_corrected = True

    def remove_items(self) -> None:
        for n in range(0, 4 * self.count, 14):
            self.named("drop-item", n)
        self.are_items_removed = True

    # ---- tests and their truths

    def test_of(self, n: int) -> dict:
        if n % 10 == 0:
            return logical("OR", old_fact(n), fact_of(n + 1), fact_of(n + 3))
        if n % 10 == 5:
            return logical("OR", old_fact(n - 5), fact_of(n), check_of(n), fact_of(n + 2))
        if n % 3 == 0:
            return logical("AND", fact_of(n), fact_of(3 * n), check_of(n // 6), fact_of(n + 2))
        if n % 3 == 1:
            inner = logical("AND", fact_of(n), check_of(n // 4), negate=True)
            return logical("OR", fact_of(3 * n), inner, fact_of(n + 4 * self.count))
        return logical("AND", logical("OR", fact_of(n + 1), fact_of(n + 3)), fact_of(2 * n), negate=True)

    def is_item(self, n: int) -> bool:
        return n % 2 == 0 and n < 4 * self.count and not (self.are_items_removed and n % 14 == 0)

    def truth(self, n: int) -> str:
        return "T" if self.is_item(n) else "F"

    def verdict(self, n: int) -> str:
        truth = self.truth
        if n % 10 == 0:
            return combined(OR, [truth(n) if self.are_names_corrected else "F", truth(n + 1), truth(n + 3)])
        if n % 10 == 5:
            return combined(OR, ["F", truth(n), truth_of_check(n), truth(n + 2)])
        if n % 3 == 0:
            return combined(AND, [truth(n), truth(3 * n), truth_of_check(n // 6), truth(n + 2)])
        if n % 3 == 1:
            inner = inverted(combined(AND, [truth(n), truth_of_check(n // 4)]))
            return combined(OR, [truth(3 * n), inner, truth(n + 4 * self.count)])
        return inverted(combined(AND, [combined(OR, [truth(n + 1), truth(n + 3)]), truth(2 * n)]))

    # ---- questions

    def ask_for_verdicts(self, kept: list[int] | None = None) -> None:
        for n in range(0, self.count, 101):
            if kept is None or n in kept:
                self.put("verdict", id=f"s{n}")
                self.answer(f"verdict s{n} {WORDS[self.verdict(n)]}")

    def ask_for_items(self) -> None:
        found = [n for n in range(0, 4 * self.count, 2) if n // 100 == 7 and self.is_item(n)]
        self.put("items", name="cpe:/a:v:p7")
        self.answer(f"items {fs('a', 'v', 'p7')} {len(found)}", *(f"item {name_of(n)}" for n in found))


class Statements(MadeInput):
    """So many statements without facts, and as many results of checks.

    If the count is the limit, more come for which there is no room.
    """

    LIMIT = 100_000

    def __init__(self, count: int) -> None:
        super().__init__()
        for n in range(count):
            self.put_statement(n)
        for n in range(count):
            self.put_result(n, RESULTS[n % 4])
        if count == self.LIMIT:
            self.overfill(count)
        self.put("drop-check", **key_of(count))
        self.refused("unknown")
        # a key that is kept takes no further room
        self.put_result(3, "ERROR")
        # if one is removed there is room again
        self.put("drop-statement", id="s0")
        self.put_statement(count)
        self.put("drop-check", **key_of(1))
        self.put_result(count, "TRUE")
        changed = {count: "TRUE", 1: "UNKNOWN", 3: "ERROR"}
        verdicts = ((n, changed.get(n, RESULTS[n % 4])) for n in range(1, count + 1))
        self.answer(f"verdicts {count}", *(f"verdict s{n} {verdict}" for n, verdict in verdicts))

    def put_statement(self, n: int) -> None:
        self.put("statement", id=f"s{n}", test=logical("AND", {"check": key_of(n)}))

    def put_result(self, n: int, truth: str) -> None:
        self.put("check", **key_of(n), result=truth)

    def overfill(self, count: int) -> None:
        self.put_statement(count)
        self.refused("full statements")
        self.put_statement(5)
        self.refused("exists")
        self.put_result(count, "TRUE")
        self.refused("full checks")


class Watched(MadeInput):
    """So many watched statements, each of one name and of two checks: one of ten, and one that all ask for.

    Results of these checks come, items of every thirtieth statement, and refused lines, and statements are removed. The
    first ten checks change a tenth of the statements each, and the last one nearly all of them at once.
    """

    def __init__(self, count: int) -> None:
        super().__init__()
        self.count = count
        self.results: dict[object, str] = {}
        self.verdicts: dict[int, str] = {}
        self.items: set[int] = set()
        self.again: set[int] = set()
        self.fill()
        self.change()
        # some come again, and stand last
        for n in range(3, count, 21):
            self.again.add(n)
            self.put_statement(n)
        self.put_result("all", "TRUE")
        self.put_result("all", "ERROR")
        self.remove_result("all")

    def fill(self) -> None:
        self.put_result("all", "FALSE")
        for n in range(self.count):
            self.put_statement(n)
        for k in range(10):
            self.put_result(k, "FALSE")
        for n in range(0, self.count, 30):
            self.put_item(n)
            self.spoil(n)

    def change(self) -> None:
        for k in range(10):
            self.put_result(k, "ERROR" if k % 2 else "TRUE")
        for n in range(3, self.count, 7):
            self.remove_statement(n)
        for n in range(0, self.count, 60):
            self.remove_item(n)
        for k in range(10):
            self.remove_result(k)

    # ---- verdicts

    def verdict(self, n: int) -> str:
        truths = {"TRUE" if n in self.items else "FALSE", *(self.results.get(k, "UNKNOWN") for k in (n % 10, "all"))}
        return next(one for one in ("TRUE", "ERROR", "UNKNOWN", "FALSE") if one in truths)

    def changed(self, n: int, before: str, now: str) -> None:
        self.answer(f"changed {len(self.lines)} s{n} {before} {now}")

    def look(self, n: int) -> None:
        """Tells the change of a statement's verdict, if there is one."""
        if n in self.verdicts:
            before, now = self.verdicts[n], self.verdict(n)
            if now != before:
                self.changed(n, before, now)
            self.verdicts[n] = now

    def look_at(self, k: object) -> None:
        """The statements that ask for a check, in the order in which they stand."""
        for n in range(self.count) if k == "all" else range(k, self.count, 10):
            if n not in self.again:
                self.look(n)
        for n in range(3, self.count, 21):
            if n in self.again and k in ("all", n % 10):
                self.look(n)

    # ---- edits

    def put_statement(self, n: int) -> None:
        test = logical("OR", {"fact": uri_of(n)}, {"check": key_of(n % 10)}, {"check": key_of("all")})
        self.put("statement", id=f"s{n}", test=test)
        self.verdicts[n] = self.verdict(n)
        self.changed(n, "none", self.verdicts[n])

    def remove_statement(self, n: int) -> None:
        self.put("drop-statement", id=f"s{n}")
        self.changed(n, self.verdicts.pop(n), "none")

    def put_result(self, k: object, truth: str) -> None:
        self.put("check", **key_of(k), result=truth)
        self.results[k] = truth
        self.look_at(k)

    def remove_result(self, k: object) -> None:
        self.put("drop-check", **key_of(k))
        del self.results[k]
        self.look_at(k)

    def put_item(self, n: int) -> None:
        self.put("item", name=uri_of(n) if n % 60 else uri_of(n).upper())
        self.items.add(n)
        self.look(n)

    def remove_item(self, n: int) -> None:
        self.put("drop-item", name=uri_of(n))
        self.items.discard(n)
        self.look(n)

    def spoil(self, n: int) -> None:
        """Lines that are refused."""
        self.put("item", name=uri_of(n))
        self.refused("exists")
        self.put("drop-item", name=uri_of(n + 1))
        self.refused("unknown")
        # (a digit after the last quotation mark)
        self.line(record("drop-check", **key_of(n % 10)).replace('"}', '"1}'))
        self.refused("json")
