"""The lines that `cpe make` writes, computed here from their numbers alone."""
from collections.abc import Iterator

from made import fs
from made_statements import RESULTS


def record(do: str, members: str) -> str:
    return f'{{"do":"{do}",{members}}}\n'


def eight(k: int) -> Iterator[str]:
    """The eight lines of one number."""

    def name(version: str) -> str:
        return fs("a", f"v{k % 50}", f"p{k}", version)

    def entry(version: str) -> str:
        return record("entry", f'"name":"{name(version)}","title":"p{k} {version}"')

    check = f'"system":"s","href":"h","id":"c{k % 63}"'
    old = f'"name":"{name("1.0")}"'
    test = f'{{"op":"OR","of":[{{"fact":"{name("2.*")}"}},{{"check":{{{check}}}}}]}}'
    yield entry("1.0")
    yield entry("2.0")
    yield record("item", old)
    yield record("statement", f'"id":"s{k}","mode":"follow","test":{test}')
    yield record("check", f'{check},"result":"{RESULTS[k % 4]}"')
    yield record("deprecate", f'{old},"kind":"NAME_CORRECTION","successors":["{name("2.0")}"],"date":"2024-01-01"')
    yield record("search", f'"name":"{fs("a", f"v{k % 50}", f"p{k}*")}"')
    yield record("restore", f'{old},"date":"2024-01-02"') if k % 2 else record("verdict", f'"id":"s{k}"')


def lines_of_make(count: int) -> bytes:
    """So many lines; they are whole eights."""
    return "".join(line for k in range(count // 8) for line in eight(k)).encode()
