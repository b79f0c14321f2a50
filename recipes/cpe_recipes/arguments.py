"""The words after a recipe's name: options, and names of files, which may begin with a hyphen too."""
from __future__ import annotations

import os
from collections.abc import Mapping, Sequence
from dataclasses import dataclass, field

from .console import Fatal

# How many words an option takes.
FLAG, ONE, MANY = 0, 1, 2


@dataclass
class Arguments:
    """A parsed command line: the options with their words, and the files that belong to no option."""

    options: dict[str, list[str]] = field(default_factory=dict)
    files: list[str] = field(default_factory=list)

    def has(self, option: str) -> bool:
        return option in self.options

    def one(self, option: str) -> str | None:
        return self.options[option][-1] if option in self.options else None

    def only(self, option: str) -> str | None:
        """The word of an option that may be given once. Fatal if it is given twice."""
        if len(self.many(option)) > 1:
            raise Fatal(f"{option} is given {len(self.many(option))} times, and once is enough")
        return self.one(option)

    def many(self, option: str) -> list[str]:
        return self.options.get(option, [])


def read_arguments(words: Sequence[str], options: Mapping[str, int], usage: str) -> Arguments:
    """Reads a command line. Fatal, with the usage, if an option isn't known or lacks its word. All words after `--` are
    files. Any other word that begins with a hyphen and is no option is a file if there is such a file."""
    arguments = Arguments()
    left = list(words)
    while left:
        word = left.pop(0)
        if word == "--":
            arguments.files.extend(left)
            break
        if word not in options:
            arguments.files.append(_file(word, usage))
            continue
        taken = arguments.options.setdefault(word, [])
        if options[word] == ONE:
            if not left:
                raise Fatal(f"{word} lacks its word; usage: {usage}")
            taken.append(left.pop(0))
        elif options[word] == MANY:
            before = len(taken)
            while left and left[0] not in options and left[0] != "--":
                taken.append(_file(left.pop(0), usage))
            if len(taken) == before:
                raise Fatal(f"{word} lacks its files; usage: {usage}")
    return arguments


def _file(word: str, usage: str) -> str:
    if word.startswith("-") and not os.path.exists(word):
        raise Fatal(f"{word} is no option and no file; usage: {usage}")
    return word
