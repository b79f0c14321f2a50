"""The vectors of each command, each with its answers; the same in single bytes, and under further commands."""
import re
import unittest

from own_case import Ended, OwnCase, joined, parted, refused_status, without

# Each folder of vectors that has inputs, and its words.
WORDS = {
    "unbind": ["unbind"],
    "bind-fs": ["bind", "fs"],
    "bind-uri": ["bind", "uri"],
    "compare": ["compare"],
    **{word: [word] for word in ("resolve", "evaluate", "watch", "convert", "explain", "check", "advise", "cover")},
    "save": ["save"],
    "load": ["load"],
}
IN_PIECES = ("convert", "explain", "check", "advise", "save", "load", "cover")
# What is longer doesn't come in single bytes.
MOST_IN_PIECES = 65_536


def table_of_changes(watched: bytes) -> bytes:
    """The table to which the changes of a watched session come: the last verdict of each statement that is left."""
    verdicts: dict[bytes, bytes] = {}
    for id, before, now in re.findall(rb"^changed \d+ (\S+) (\S+) (\S+)$", watched, re.MULTILINE):
        if now == b"none":
            del verdicts[id]
        else:
            verdicts[id] = now
    return joined([b"verdicts %d" % len(verdicts), *(b"verdict %s %s" % pair for pair in verdicts.items())])


def without_changes(watched: bytes) -> bytes:
    return without(b"changed ", watched)


class VectorCase(OwnCase):
    def outputs(self, folder):
        """The inputs of a folder, and what has to be written."""
        return [(path, path.with_suffix(".out").read_bytes()) for path in self.vectors(folder)]


class Vectors(VectorCase):
    def test_each_vector_has_its_answers(self):
        for folder, words in WORDS.items():
            for path, output in self.outputs(folder):
                self.answers(f"vectors: {' '.join(words)}, {path.stem}", path, output, refused_status(output), *words)

    def test_each_vector_is_answered_in_single_bytes(self):
        for folder in IN_PIECES:
            for path, output in self.outputs(folder):
                data = path.read_bytes()
                if len(data) <= MOST_IN_PIECES:
                    with self.subTest(f"vectors in single bytes: {folder}, {path.stem}"):
                        self.judge(self.run_in_pieces([folder], data), refused_status(output), output)

    def test_each_folder_of_inputs_is_tested(self):
        found = {path.parent.name for path in (self.root / "tests" / "vectors").glob("*/*.in")}
        self.assertEqual(found, set(WORDS))


class OtherCommands(VectorCase):
    """What one command writes, compared with what another one writes of the same lines."""

    def watched(self, what, given, output):
        """A check that watch writes what evaluate writes, except for the table, to which its changes come."""
        with self.subTest(what):
            run = self.run_cpe(["watch"], given)
            changes = without_changes(run.output) + table_of_changes(run.output)
            self.judge(Ended(run.status, changes, run.said), refused_status(output), output)

    def test_resolve_writes_what_evaluate_writes_before_its_table(self):
        for path, output in self.outputs("evaluate"):
            before, _ = parted(output)
            self.answers(f"vectors: resolve, {path.stem}", path, before, refused_status(before), "resolve")

    def test_resolve_and_evaluate_write_what_watch_writes_without_its_changes(self):
        for path, output in self.outputs("watch"):
            unwatched, status = without_changes(output), refused_status(output)
            self.answers(f"vectors of watch: resolve, {path.stem}", path, unwatched, status, "resolve")
            with_table = unwatched + table_of_changes(output)
            self.answers(f"vectors of watch: evaluate, {path.stem}", path, with_table, status, "evaluate")

    def test_the_changes_of_watch_come_to_the_table_of_evaluate(self):
        for path, output in self.outputs("evaluate"):
            self.watched(f"vectors of evaluate: watch, {path.stem}", path, output)
        for path in self.vectors("resolve"):
            self.watched(f"vectors of resolve: watch, {path.stem}", path, self.run_cpe(["evaluate"], path).output)


if __name__ == "__main__":
    unittest.main()
