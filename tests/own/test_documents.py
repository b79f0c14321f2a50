"""The examples of documents: the sessions of a shell, and the table of words in docs/RECORDS.md."""
import os
import unittest

from own_case import OwnCase, joined, lines_of
from sessions import calls_python, rows_of, sessions_of


class Documents(OwnCase):
    def pages(self):
        """The documents that have sessions."""
        pages = [self.root / "README.md", *sorted((self.root / "docs").glob("*.md"))]
        found = [(page, page.read_text()) for page in pages]
        return [(page.relative_to(self.root), text) for page, text in found if "\n    $ " in f"\n{text}"]

    def environment(self):
        """One in which the program is called cpe."""
        folder = self.room / "bin"
        folder.mkdir(exist_ok=True)
        calls = folder / "cpe"
        calls.write_text(f'#!/bin/sh\nexec "{self.program}" "$@"\n')
        calls.chmod(0o755)
        return {**os.environ, "PATH": f"{folder}:{os.environ['PATH']}"}

    def test_sessions_write_what_the_documents_say(self):
        pages = self.pages()
        self.assertTrue(pages, "no document has a session")
        for page, text in pages:
            found = sessions_of(text)
            with self.subTest(f"the sessions of {page}"):
                if calls_python(text):
                    self.needs("python3")
                typed = self.file("typed", found.typed.encode())
                self.judge(self.ended(["sh", typed], env=self.environment()), 0, found.written.encode())

    def test_the_table_of_words_has_what_is_written(self):
        rows = rows_of((self.root / "docs" / "RECORDS.md").read_text())
        self.assertTrue(rows, "the table of words has no example")
        for row in rows:
            with self.subTest(f"the table of words in docs/RECORDS.md: {' '.join(row.words)}"):
                run = self.run_cpe(row.words, self.file("given", row.given.encode()))
                if row.is_beginning:
                    count = row.written.count("\n")
                    run = run._replace(output=joined(lines_of(run.output)[:count]))
                self.judge(run, 0, row.written.encode())


if __name__ == "__main__":
    unittest.main()
