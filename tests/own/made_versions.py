"""Products in five versions each: advisories over some of them, and lists of names of which a few cover the others."""
from made import MadeInput, fs

VERSIONS = (None, "0.9", "1.0beta2", "1.0", "1.0.1", "2.0")
PLACES = range(1, 6)


def is_excluded_start(n: int) -> bool:
    return n % 4 == 1


def is_excluded_end(n: int) -> bool:
    return n % 5 == 2


class Advised(MadeInput):
    """So many products of five versions each as items, and for each product an advisory over some of its versions.

    Refused lines and questions stand between them. A version is removed and comes again, and then stands last. The
    versions rise.
    """

    def __init__(self, count: int) -> None:
        super().__init__()
        self.count = count
        # The products whose third version is away, and those whose third version came again.
        self.away: set[int] = set()
        self.back: set[int] = set()
        for n in range(count):
            self.add(n)
        for n in range(0, count, 4):
            self.move(n)
        for n in range(0, count, 3):
            self.ask_for_advisories(n, n % 5 + 1)
        for n in range(0, count, 13):
            self.with_id("drop-advisory", n)
            self.with_id("affected", n)
            self.answer(f"affected a{n} absent")

    def name(self, n: int, k: int) -> str:
        return fs("a", "v", f"p{n}", VERSIONS[k])

    def uri(self, n: int, k: int) -> str:
        return f"cpe:/a:v:p{n}:{VERSIONS[k]}"

    # ---- records

    def named(self, do: str, n: int, k: int) -> None:
        self.put(do, name=self.name(n, k) if n % 3 else self.uri(n, k).upper())

    def with_id(self, do: str, n: int) -> None:
        self.put(do, id=f"a{n}")

    def first(self, n: int) -> int:
        """The place of the first version of an advisory's range; 0 if it has no start."""
        return n % 6

    def last(self, n: int) -> int:
        return (n + n // 6) % 6

    def advisory(self, n: int, more: str = "") -> None:
        start, end = VERSIONS[self.first(n)], VERSIONS[self.last(n)]
        starts = {"start": start, "start-excluded": is_excluded_start(n)}
        ends = {"end": end, "end-excluded": is_excluded_end(n)}
        given = {word: value for word, value in {**starts, **ends}.items() if value}
        self.put("advisory", id=f"a{n}", name=f"cpe:/a:v:p{n}{more}", **given)

    def spoil(self, n: int) -> None:
        """Records that are refused."""
        self.advisory(n)
        self.refused("exists")
        self.advisory(n + self.count, ":1")
        self.refused("version")
        self.named("item", n, 2)
        self.refused("exists")
        self.put("item", name=f"{self.uri(n, 2)}%02")
        self.refused("wildcards")
        self.named("drop-item", n + self.count, 2)
        self.refused("unknown")
        self.with_id("drop-advisory", n + self.count)
        self.refused("unknown")

    def has_pattern(self, n: int) -> bool:
        """Whether a second advisory is over this product, by a pattern that this product alone matches."""
        return n % 10 == 7

    def add(self, n: int) -> None:
        for k in PLACES:
            self.named("item", n, k)
        self.advisory(n)
        if self.has_pattern(n):
            self.put("advisory", id=f"p{n}", name=fs("a", "v", f"?p{n}"))
        if n % 10 == 9:
            self.spoil(n)
        self.ask_for_items(n)

    def move(self, n: int) -> None:
        self.named("drop-item", n, 3)
        self.away.add(n)
        self.ask_for_items(n)
        self.named("item", n, 3)
        self.away.discard(n)
        self.back.add(n)
        self.ask_for_items(n)

    # ---- questions

    def affects(self, n: int, k: int) -> bool:
        first, last = self.first(n), self.last(n)
        if first and (k < first or k == first and is_excluded_start(n)):
            return False
        return not last or k < last or k == last and not is_excluded_end(n)

    def ask_for_items(self, n: int) -> None:
        places = [k for k in PLACES if self.affects(n, k) and not (k == 3 and (n in self.away or n in self.back))]
        if n in self.back and self.affects(n, 3):
            places.append(3)
        self.with_id("affected", n)
        self.answer(f"affected a{n} {len(places)}", *(f"item {self.name(n, k)}" for k in places))

    def ask_for_advisories(self, n: int, k: int) -> None:
        found = [f"a{n}"] * self.affects(n, k) + [f"p{n}"] * self.has_pattern(n)
        self.named("advisories", n, k)
        self.answer(f"advisories {self.name(n, k)} {len(found)}", *(f"advisory {id}" for id in found))


class Covered(MadeInput):
    """So many products of five versions each.

    Some of them come in any version, and some with a pattern that one of the versions matches. Names stand in different
    letter cases, and refused lines between them.
    """

    def __init__(self, count: int) -> None:
        super().__init__()
        left = []
        for n in range(count):
            self.add(n)
            left += self.left(n)
        self.answer(*sorted(left))

    def name(self, n: int, version: str) -> str:
        return fs("a", "v", f"p{n}", version)

    def uri(self, n: int, version: str) -> str:
        return f"cpe:/a:v:p{n}:{version}"

    def add(self, n: int) -> None:
        for k in range(5):
            self.line(self.uri(n, f"{k}.0").upper() if n % 2 else self.name(n, f"{k}.0"))
        if n % 3 == 0:
            self.line(f"cpe:/a:V:p{n}")
        if n % 10 == 1:
            self.line(self.name(n, "1*"))
        if n % 7 == 2:
            self.line(self.uri(n, "%zz"))
            self.refused(f"name {12 + len(str(n))}")

    def left(self, n: int) -> list[str]:
        """The names of this product that no other name covers."""
        has_pattern = n % 10 == 1
        patterns = [self.name(n, "1*")] * has_pattern
        if n % 3 == 0:
            return [*patterns, self.name(n, "*")]
        return [*patterns, *(self.name(n, f"{k}.0") for k in range(5) if k != 1 or not has_pattern)]
