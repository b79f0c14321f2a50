"""The parts of names that recipes read."""
import sys
import unittest
from pathlib import Path

sys.path.insert(0, str(Path(__file__).resolve().parents[2] / "recipes"))

from cpe_recipes import names  # noqa: E402


class Components(unittest.TestCase):
    def test_quoted_characters_end_no_component(self):
        name = r"cpe:2.3:a:acme:c\+\+\:\\:1.0\(2\):-:*:*:*:*:*:*"
        self.assertEqual(names.components(name), ["a", "acme", r"c\+\+\:\\", r"1.0\(2\)", "-"] + ["*"] * 6)
        self.assertEqual(names.join(names.components(name)), name)
        self.assertEqual(names.product_of(name), ("acme", r"c\+\+\:\\"))

    def test_plain_texts(self):
        for component, body in ((r"c\+\+", "c++"), (r"a\*b\?", "a*b?"), (r"\\", "\\"), ("1.0-rc_1", "1.0-rc_1")):
            self.assertEqual((names.body(component), names.quote(body)), (body, component))
        for component in ("*", "-", "a*", "?a", r"\**", "*a*"):
            self.assertIsNone(names.body(component), component)
            self.assertFalse(names.is_plain(component))


if __name__ == "__main__":
    unittest.main()
