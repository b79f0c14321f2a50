"""Records in one form, and certificates: what is written of them by further commands."""
import re
import sys
import unittest

from own_case import OwnCase, joined, lines_of, without

INVENTORIES = ("examples/inventory.jsonl", "examples/objects.jsonl")
DICTIONARIES = ("examples/dictionary.jsonl", "examples/deprecations.jsonl")
# How a certificate begins, and the id of its statement as JSON has it.
CERTIFICATE = b'{"do":"proof",'
ID = re.compile(rb'\{"do":"proof","id":"((?:[^"\\]|\\.)*)"')


def id_of(certificate: bytes) -> bytes:
    return re.sub(rb"\\(.)", rb"\1", ID.match(certificate)[1])


class Forms(OwnCase):
    def test_the_form_of_a_record_is_answered_as_the_record(self):
        """A line that was no record is refused for another reason."""
        given = {"resolve": DICTIONARIES, "evaluate": (*INVENTORIES, *self.vectors("evaluate"))}
        for word, paths in given.items():
            for path in map(self.root.joinpath, paths):
                with self.subTest(f"records and their forms: {word}, {path.name}"):
                    alone, forms = self.run_cpe([word], path), self.run_cpe(["convert"], path)
                    converted = self.run_cpe([word], forms.output)
                    output = without(b"refused ", converted.output)
                    run = converted._replace(output=output, said=alone.said + forms.said + converted.said)
                    self.judge(run, alone.status, without(b"refused ", alone.output))


class Certificates(OwnCase):
    def explained(self, path, name):
        """The certificates of explain, and how a run of check has to end over them.

        It is checked too that explain writes what resolve writes, and else only certificates.
        """
        explained, resolved = self.run_cpe(["explain"], path), self.run_cpe(["resolve"], path)
        certificates = [line for line in lines_of(explained.output) if line.startswith(CERTIFICATE)]
        with self.subTest(f"explain answers as resolve does: {name}"):
            output = without(CERTIFICATE, explained.output)
            said = explained.said + resolved.said
            self.judge(explained._replace(output=output, said=said), resolved.status, resolved.output)
        held = joined(b"proof %s holds" % id_of(line) for line in certificates)
        return joined(certificates), resolved._replace(output=resolved.output + held)

    def test_each_certificate_of_explain_holds(self):
        for path in map(self.root.joinpath, (*INVENTORIES, *self.vectors("evaluate"))):
            certificates, expected = self.explained(path, path.name)
            with self.subTest(f"certificates hold: {path.name}"):
                checked = self.run_cpe(["check"], path.read_bytes() + b"\n" + certificates)
                self.judge(checked, expected.status, expected.output)

    def test_a_second_program_makes_and_judges_the_same_certificates(self):
        """It is small, and tells which of a thousand changed ones are good."""
        with self.subTest("certificates of which a token is changed"):
            run = self.ended([sys.executable, "-B", self.root / "tests" / "proofs.py", self.program])
            failed = joined(line for line in lines_of(run.output) if line.startswith(b"FAILED"))
            self.judge(run._replace(output=failed), 0, b"")


if __name__ == "__main__":
    unittest.main()
