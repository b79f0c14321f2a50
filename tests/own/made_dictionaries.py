"""Dictionaries: many entries and questions to them; and families of entries that are deprecated, with their chains."""
from made import MadeInput, fs

CORRECTION, INFORMATION, REMOVAL = "NAME_CORRECTION", "ADDITIONAL_INFORMATION", "NAME_REMOVAL"


class Dictionary(MadeInput):
    """So many entries, a refused record after each tenth of them, and then questions."""

    def __init__(self, count: int) -> None:
        super().__init__()
        self.count = count
        for n in range(count):
            self.add(n)
            if n % 10 == 9:
                self.spoil(n)
        for n in range(0, count + 40, 37):
            self.ask_for_one(n)
        self.search()

    def name(self, n: int) -> str:
        return fs("a", "v", f"p{n // 100}", str(n % 100))

    def uri(self, n: int) -> str:
        return f"cpe:/a:v:p{n // 100}:{n % 100}"

    def add(self, n: int) -> None:
        more = {"provenance": {"submitter": f"s{n}"}} if n % 3 == 0 else {}
        self.put("entry", name=self.uri(n) if n % 2 else self.name(n), title=f"No. {n}", **more)

    def spoil(self, n: int) -> None:
        """A record that is refused; of each kind one in sixty entries."""
        kind = n % 60
        if kind == 9:
            self.put("entry", name=self.uri(n).upper(), title="another")
            self.refused("exists")
        elif kind == 19:
            self.line(f'<entry name="{self.uri(n)}"/>')
            self.refused("json")
        elif kind == 29:
            self.put("remove", name=self.uri(n))
            self.refused("member do")
        elif kind == 39:
            self.put("entry", name=self.uri(n + 1), title=None)
            self.refused("member title")
        elif kind == 49:
            self.put("entry", name=f"cpe:/a:v::{n}")
            self.refused("not-identifier")
        elif kind == 59:
            self.put("entry", name=f"{self.uri(n + 1)}%02")
            self.refused("wildcards")

    def shown(self, n: int) -> str:
        """An entry in full."""
        submitter = f"s{n}" if n % 3 == 0 else ""
        provenance = '{"authority":"","changes":[],"submitter":"%s"}' % submitter
        return f'{{"deprecation":null,"name":"{self.name(n)}","provenance":{provenance},"title":"No. {n}"}}'

    def ask_for_one(self, n: int) -> None:
        self.put("lookup", name=self.name(n) if n % 2 else self.uri(n))
        self.answer(f"lookup {self.name(n)} {'active' if n < self.count else 'absent'}")
        self.put("show", name=self.uri(n))
        self.answer(f"show {self.shown(n)}" if n < self.count else f"show {self.name(n)} absent")

    def found(self, name: str, numbers: range) -> None:
        """A search under this name finds these entries."""
        self.answer(f"search {name} {len(numbers)}", *(f"entry {self.name(n)} active" for n in numbers))

    def search(self) -> None:
        self.put("search", name="cpe:/a:v:p7")
        self.found(fs("a", "v", "p7"), range(700, min(self.count, 800)))
        self.put("search", name="cpe:/a:v::42")
        self.found(fs("a", "v", "*", "42"), range(42, self.count, 100))
        self.put("search", name=fs("*", "*", "*p0", "?"))
        self.refused("name name 17")
        self.put("search", name=fs("*", "*", "*p0", "?1"))
        self.found(fs("*", "*", "*p0", "?1"), range(1, 100, 10))
        self.put("search", name="cpe:/o")
        self.found(fs("o", "*", "*"), range(0))


class Families(MadeInput):
    """So many families of eleven entries, most of them deprecated, with chains and refusals between them.

    - 0 is corrected to 1, which gives 2 and 3, and 2 is removed; 4 is corrected to 3, and 5 gives 0 and 4
    - 6 is corrected to the 6 of the family before, except in each fiftieth family
    - 7 gives the 8s of the sixteen families before, and 8 stays active
    - 9 is removed, that is amended, it is restored, and deprecated again, by 8
    - 10 gives, in each sixteenth family, sixteen 7s, and so 256 ends

    Questions come at the end.
    """

    def __init__(self, count: int) -> None:
        super().__init__()
        for f in range(count):
            self.add(f)
            if f % 3 == 0:
                self.spoil(f)
            self.ask_all(f)
        self.put("search", name="cpe:/a:family:f33", active=True)
        self.answer(f"search {self.name(33, '*')} 3", *(f"entry {self.name(33, k)} active" for k in (3, 8, 10)))
        for f in range(250, count - 49, 50):
            self.remove_first(f)
        for f in range(count - 1, -1, -11):
            self.ask_all(f)

    def name(self, f: int, k: int | str) -> str:
        return fs("a", "family", f"f{f}", str(k))

    def uri(self, f: int, k: int) -> str:
        return f"cpe:/a:family:f{f}:{k}"

    def by(self, *names: tuple[int, int]) -> list[str]:
        """Successors, in one binding or the other."""
        return [self.name(f, k) if (f + k) % 2 else self.uri(f, k) for f, k in names]

    # ---- records

    def ask(self, do: str, f: int, k: int) -> None:
        self.put(do, name=self.uri(f, k) if k % 2 else self.name(f, k))

    def edit(self, do: str, f: int, k: int, kind: str, successors: list[str], date: str) -> None:
        """A deprecation, or a change of one. No kind and no successors are members that are left out."""
        more = {**({"kind": kind} if kind else {}), **({"successors": successors} if successors else {})}
        self.put(do, name=self.name(f, k) if k % 2 else self.uri(f, k).upper(), **more, date=date)

    def remove(self, f: int, k: int) -> None:
        self.edit("deprecate", f, k, REMOVAL, [], "2024-01-01")

    def correct(self, f: int, k: int, *successors: tuple[int, int]) -> None:
        self.edit("deprecate", f, k, CORRECTION, self.by(*successors), "2024-01-01")

    def inform(self, f: int, k: int, *successors: tuple[int, int]) -> None:
        self.edit("deprecate", f, k, INFORMATION, self.by(*successors), "2024-01-01")

    def add(self, f: int) -> None:
        for k in range(11):
            self.ask("entry", f, k)
        self.correct(f, 0, (f, 1))
        self.inform(f, 1, (f, 2), (f, 3))
        self.remove(f, 2)
        self.correct(f, 4, (f, 3))
        self.inform(f, 5, (f, 0), (f, 4))
        if f % 50:
            self.correct(f, 6, (f - 1, 6))
        if f >= 16:
            self.inform(f, 7, *((g, 8) for g in range(f - 16, f)))
        self.remove(f, 9)
        self.edit("amend", f, 9, INFORMATION, self.by((f, 8), (f, 4)), "2024-02-02")
        self.edit("restore", f, 9, "", [], "2024-03-03")
        self.correct(f, 9, (f, 8))
        if self.is_widest(f):
            self.widen(f)

    def is_widest(self, f: int) -> bool:
        """Whether the 10 of this family gives 256 ends."""
        return f >= 256 and f % 16 == 0

    def widen(self, f: int) -> None:
        if f > 256:
            # (what the 10 before gives, and one more)
            self.inform(f, 10, (f - 16, 10), (f - 1, 8))
            self.refused(f"too-wide {self.name(f, 10)}")
        self.inform(f, 10, *((g, 7) for g in range(f, f - 256, -16)))

    def spoil(self, f: int) -> None:
        """Records that are refused."""
        self.correct(f, 3, (f, 5))
        self.refused("cycle 1")
        self.inform(f, 3, (f, 8), (f, 0))
        self.refused("cycle 2")
        self.inform(f, 8, (f, 3), (f + 1, 3), (f, 3))
        self.refused("unknown-successor 2")
        self.inform(f, 8, (f, 3), (f, 4), (f, 3))
        self.refused("repeated-successor 3")
        self.correct(f, 8)
        self.refused("count")
        self.remove(f, 5)
        self.refused("already-deprecated")
        self.edit("restore", f, 8, "", [], "2024-01-01")
        self.refused("not-deprecated")
        self.remove(f + 1, 0)
        self.refused("unknown")

    # ---- questions and their answers

    def step(self, f: int, k: int, state: str) -> None:
        self.answer(f"step {self.name(f, k)} {state}")

    def end(self, f: int, k: int) -> None:
        self.answer(f"end {self.name(f, k)}")

    def chain(self, f: int, k: int, steps: int, ends: int) -> None:
        self.ask("chain", f, k)
        self.answer(f"chain {self.name(f, k)} {steps} {ends}")

    def ask_all(self, f: int) -> None:
        self.ask_diamond(f)
        self.ask_correction(f)
        if f >= 16:
            self.ask_sixteen(f)
        if self.is_widest(f):
            self.ask_widest(f)
        self.ask_notes(f)

    def ask_diamond(self, f: int) -> None:
        self.chain(f, 5, 6, 1)
        for k, state in enumerate((CORRECTION, INFORMATION, REMOVAL, "active", CORRECTION, INFORMATION)):
            self.step(f, k, state)
        self.end(f, 3)

    def ask_correction(self, f: int) -> None:
        """The chain of a family and of those before it, as far back as fifty families begin."""
        first = f - f % 50
        self.chain(f, 6, f - first + 1, 1)
        self.step(first, 6, "active")
        for g in range(first + 1, f + 1):
            self.step(g, 6, CORRECTION)
        self.end(first, 6)

    def ask_sixteen(self, f: int) -> None:
        self.chain(f, 7, 17, 16)
        for g in range(f - 16, f):
            self.step(g, 8, "active")
        self.step(f, 7, INFORMATION)
        for g in range(f - 16, f):
            self.end(g, 8)

    def ask_widest(self, f: int) -> None:
        self.chain(f, 10, 273, 256)
        for g in range(f - 256, f + 1):
            if g > f - 256 and g % 16 == f % 16:
                self.step(g, 7, INFORMATION)
            if g < f:
                self.step(g, 8, "active")
        self.step(f, 10, INFORMATION)
        for g in range(f - 256, f):
            self.end(g, 8)

    def ask_notes(self, f: int) -> None:
        """An entry in full, with a note of each of its changes."""
        changes = (
            ("2024-01-01", "DEPRECATION"),
            ("2024-02-02", "DEPRECATION_MODIFICATION"),
            ("2024-03-03", "DEPRECATION_MODIFICATION"),
            ("2024-01-01", "DEPRECATION"),
        )
        notes = ",".join(f'{{"comment":"","date":"{date}","kind":"{kind}"}}' for date, kind in changes)
        self.ask("show", f, 9)
        deprecation = f'{{"kind":"{CORRECTION}","successors":["{self.name(f, 8)}"]}}'
        provenance = f'{{"authority":"","changes":[{notes}],"submitter":""}}'
        members = f'"name":"{self.name(f, 9)}","provenance":{provenance},"title":""'
        self.answer(f'show {{"deprecation":{deprecation},{members}}}')

    def remove_first(self, f: int) -> None:
        """If the first of fifty is removed, nothing is left for the others."""
        self.remove(f, 6)
        self.chain(f + 2, 6, 3, 0)
        self.step(f, 6, REMOVAL)
        self.step(f + 1, 6, CORRECTION)
        self.step(f + 2, 6, CORRECTION)
        self.edit("restore", f, 6, "", [], "2024-04-04")
        # (what is widest has no room for one more)
        self.inform(f - 5, 8, (f, 6), (f - 5, 3))
        self.refused(f"too-wide {self.name(f + 11 - (f - 5) % 16, 10)}")
