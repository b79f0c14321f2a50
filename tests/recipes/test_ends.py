"""How each recipe ends: on a full disk, with names that begin with a hyphen, with packed pages, and without a file."""
import gzip
import shutil
import subprocess
import unittest

from recipe_case import RECIPES, SAMPLES, RecipeCase, needs_cpe

RECORDS, VERDICTS, MACHINES = "records", "verdicts", "machines"
# The words of each recipe, with names of files in the folder.
WORDS = {
    "dictionary": ["dictionary.json"],
    "advisories": ["advisories.json"],
    "inventory": ["cyclonedx.json"],
    "inventory --machines": ["cyclonedx.json"],
    "affected": [VERDICTS],
    "changes": [VERDICTS, VERDICTS + "-2"],
    "unlisted": [RECORDS, MACHINES],
    "perhaps": [RECORDS, MACHINES],
    "products": ["--machines", MACHINES, "advisories.json"],
    "fleet/parallel": [RECORDS, MACHINES],
}


@needs_cpe
class Ends(RecipeCase):
    def setUp(self):
        super().setUp()
        for name in ("dictionary.json", "advisories.json", "cyclonedx.json"):
            shutil.copy(SAMPLES / name, self.folder)
        records = (SAMPLES / "dictionary.jsonl").read_bytes() + (SAMPLES / "advisories.jsonl").read_bytes()
        perhaps = b'{"do":"statement","id":"perhaps","test":{"op":"OR","of":[{"fact":"cpe:/a:mysql:mysql:5.1.73:sp1"}]}}\n'
        self.file(RECORDS, records + perhaps)
        self.file(MACHINES, (SAMPLES / "machines.txt").read_bytes())
        verdicts = (SAMPLES / "machines.out").read_text()
        self.file(VERDICTS, verdicts)
        self.file(VERDICTS + "-2", verdicts.replace("TRUE", "ERROR"))
        self.has_parallel = shutil.which("parallel")

    def each(self, check):
        """Checks each recipe with its words."""
        for recipe, words in WORDS.items():
            if recipe != "fleet/parallel" or self.has_parallel:
                name, *options = recipe.split()
                with self.subTest(recipe):
                    check(name, [*options, *words])

    def run_in(self, script, name, words):
        command = ["sh", "-c", f'{script} exec sh "$@"', "sh", str(RECIPES / f"{name}.sh"), *words]
        return subprocess.run(command, cwd=self.folder, stdin=subprocess.DEVNULL, text=True, capture_output=True)

    def test_a_full_disk(self):
        def check(name, words):
            ended = self.run_in("exec > /dev/full;", name, words)
            self.assertEqual(ended.returncode, 2, ended.stderr)
            self.assertRegex(ended.stderr.splitlines()[-1], r"^\w+\.sh: .*(could not be written: No space left|no room)")

        self.each(check)

    def test_a_file_that_may_not_grow(self):
        def check(name, words):
            ended = self.run_in("exec > out; ulimit -f 0;", name, words)
            self.assertEqual((ended.returncode, (self.folder / "out").read_text()), (2, ""), ended.stderr)
            self.assertRegex(ended.stderr.splitlines()[-1], r"^\w+\.sh: .*(could not be written: File too large|no room)")

        self.each(check)

    def test_names_that_begin_with_a_hyphen_and_packed_files(self):
        for path in list(self.folder.iterdir()):
            (self.folder / f"-{path.name}.gz").write_bytes(gzip.compress(path.read_bytes()))

        def check(name, words):
            plain = self.run_in("", name, words)
            packed = self.run_in("", name, [word if word.startswith("--") else f"-{word}.gz" for word in words])
            # (a machine has the name of its list)
            wanted = (
                plain.stdout.replace("cyclonedx", "-cyclonedx")
                if words[0] == "--machines" and name == "inventory"
                else plain.stdout
            )
            self.assertEqual((packed.returncode, packed.stdout), (plain.returncode, wanted), packed.stderr)
            self.assertGreater(len(plain.stdout), 0)

        self.each(check)

    def test_a_file_that_is_not_there(self):
        def check(name, words):
            for place in range(len(words)):
                if not words[place].startswith("--"):
                    ended = self.run_in("", name, [*words[:place], "none", *words[place + 1 :]])
                    self.assertEqual((ended.returncode, ended.stdout), (2, ""), ended.stderr)
                    self.assertRegex(
                        ended.stderr.splitlines()[-1], r"^\w+\.sh: none: can not be read: No such file or directory$"
                    )

        self.each(check)

    def test_no_program(self):
        def check(name, words):
            if name not in ("affected", "changes"):
                ended = self.run_in("CPE=/no/cpe; export CPE;", name, words)
                self.assertEqual((ended.returncode, ended.stdout), (2, ""))
                self.assertRegex(ended.stderr, r"^\w+\.sh: there is no /no/cpe\n$")

        self.each(check)


if __name__ == "__main__":
    unittest.main()
