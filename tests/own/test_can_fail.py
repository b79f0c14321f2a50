"""The checks can fail: a program that is wrong in one thing, or an altered copy of what it is compared with, fails the
checks of this thing by name, and no others."""
import shutil
import unittest
from pathlib import Path
from unittest import mock

import faults
import test_input
import test_records
from own_case import OwnCase
from run import KINDS, Checks

# How many lines come at volume here, how many seconds an answer is waited for, and how many names are searched for.
FEW_LINES, SOON, FEW_NAMES = 3_000, 5, 10


class FaultCase(OwnCase):
    def fail_exactly(self, tests, expected):
        """A check that of these tests exactly these checks fail. One that is skipped here can't fail."""
        result = Checks()
        unittest.defaultTestLoader.loadTestsFromNames(tests).run(result)
        names = {how: sorted(check.name for check in result.checks if check.how == how) for how in KINDS}
        for name in names["skipped"]:
            if name in expected:
                self.skipTest(f"this is skipped: {name}")
        self.assertEqual(names["failed"], sorted(expected))

    def copied(self, paths) -> Path:
        """A copy of these files and folders, in which they may be altered."""
        copy = self.room / "copy"
        for path in paths:
            source, target = self.root / path, copy / path
            target.parent.mkdir(parents=True, exist_ok=True)
            if source.is_dir():
                shutil.copytree(source, target)
            else:
                shutil.copy(source, target)
        return copy


class WrongPrograms(FaultCase):
    def fail_by_name(self, wrong):
        """A check for each of these programs that it fails its checks, and no others."""
        room = self.room / "wrong"
        room.mkdir()
        for one in wrong:
            with self.subTest(f"a wrong program fails its checks: {one.what}"):
                text = faults.PROGRAM.format(cpe=self.program, room=room, wrong=one.line)
                program = self.file("cpe", text.encode())
                program.chmod(0o755)
                with mock.patch.object(OwnCase, "program", str(program)):
                    self.fail_exactly(one.tests, one.failing)

    def test_programs_that_are_wrong_about_names_fail(self):
        self.fail_by_name(faults.OF_NAMES)

    def test_programs_that_are_wrong_about_records_fail(self):
        few = test_records.Searches().asked()[:FEW_NAMES]
        with mock.patch.object(test_records.Searches, "asked", lambda _: few):
            self.fail_by_name(faults.OF_RECORDS)

    def test_programs_that_read_their_input_wrongly_fail(self):
        with mock.patch.multiple(test_input, LINES=FEW_LINES, PATIENCE=SOON):
            self.fail_by_name(faults.OF_INPUT)

    def test_programs_that_write_their_output_wrongly_fail(self):
        self.fail_by_name(faults.OF_OUTPUT)

    def test_programs_that_are_wrong_about_rows_or_words_fail(self):
        self.fail_by_name(faults.OF_ROWS)

    def test_programs_that_are_wrong_under_one_of_two_commands_fail(self):
        few = [f"tests/vectors/{name}.{kind}" for name in faults.FEW_VECTORS for kind in ("in", "out")]
        with mock.patch.object(OwnCase, "root", self.copied(few)):
            self.fail_by_name(faults.OF_VECTORS)


class AlteredCopies(FaultCase):
    def test_an_altered_copy_fails_its_checks(self):
        copy = self.copied(faults.COPIED)
        (copy / "README.md").write_text("Nothing is typed here.\n")
        # (the sessions of documents write there)
        (copy / "build").mkdir()
        # (what a test needs to run the right copy, the altered one doesn't need)
        with mock.patch.multiple(OwnCase, root=copy, needs=lambda *_: None):
            for one in faults.COPIES:
                with self.subTest(f"an altered copy fails its checks: {one.what}"):
                    path = copy / one.path
                    data = path.read_bytes()
                    self.assertIn(one.old, data)
                    path.write_bytes(data.replace(one.old, one.new, 1))
                    try:
                        self.fail_exactly(one.tests, one.failing)
                    finally:
                        path.write_bytes(data)


if __name__ == "__main__":
    unittest.main()
