"""Lists without CPE names: package URLs, output of package managers, and locks."""
import json
import random
import time
import unittest

from recipe_case import SAMPLES, RecipeCase, needs_cpe

from cpe_recipes import lists
from cpe_recipes.components import Component
from cpe_recipes.feeds import FeedFault
from cpe_recipes.lists import texts
from cpe_recipes.purls import Purl, PurlFault, check, parse, with_upstream

PACKAGES = SAMPLES / "lists" / "packages"
NO_LISTS = ("read.out", "truths.txt", "truths.out", "table.out", "table.said")
LISTED = sorted(one for one in PACKAGES.iterdir() if one.name not in NO_LISTS)
TEXTS = [one for one in LISTED if one.suffix == ".txt"]
DEBIAN_L = b"ii  openssl  3.0.11-1~deb12u2  amd64  toolkit\n"


def rendered(listed):
    """The contents of a list, a line for each."""
    if listed.platform is not None:
        yield f"platform {listed.platform.id}: {' '.join(listed.platform.names)}".rstrip()
    for one in listed.parts:
        yield f"odd {one.id}: {one.reason}" if isinstance(one, lists.Oddity) else " ".join(["has", *one.names, one.purl]).rstrip()
    yield from (f"remark {remark}" for remark in listed.remarks)


class ListCase(RecipeCase):
    def read(self, data, name="list"):
        return lists.read(name, data if isinstance(data, bytes) else data.encode())

    def purls(self, data):
        return [one.purl for one in self.read(data).components()]

    def odd(self, data):
        return [(one.id, one.reason) for one in self.read(data).all() if isinstance(one, lists.Oddity)]

    def refused(self, data):
        with self.assertRaises(FeedFault) as caught:
            self.read(data)
        return str(caught.exception)


class Purls(unittest.TestCase):
    def test_both_directions(self):
        for text, purl in {
            "pkg:deb/debian/bind9@1:9.18.24-1~deb12u1%2Bb1?arch=amd64": Purl("deb", "bind9", "debian", "1:9.18.24-1~deb12u1+b1", (("arch", "amd64"),)),
            "pkg:npm/%40babel/core@7.1.0": Purl("npm", "core", "@babel", "7.1.0"),
            "pkg:golang/github.com/go-chi/chi/v5@v5.0.1#middleware/x": Purl("golang", "v5", "github.com/go-chi/chi", "v5.0.1", (), "middleware/x"),
            "pkg:rpm/a@1?epoch=1&upstream=b-1.src.rpm": Purl("rpm", "a", "", "1", (("epoch", "1"), ("upstream", "b-1.src.rpm"))),
            "pkg:apk/libstdc%2B%2B@1": Purl("apk", "libstdc++", "", "1"),
            "pkg:generic/a%20b%2Fc%23%3F": Purl("generic", "a b/c#?"),
            "pkg:pypi/%C3%A9t%C3%A9@1%252": Purl("pypi", "été", "", "1%2"),
        }.items():
            self.assertEqual((parse(text), purl.text()), (purl, text))

    def test_other_spellings(self):
        for text, other in {
            "PKG://NPM/@babel/core@7": "pkg:npm/%40babel/core@7",
            "pkg:npm/@babel/core": "pkg:npm/%40babel/core",
            "pkg:deb/debian/a@1%3a2+b?Arch=all&x=": "pkg:deb/debian/a@1:2%2Bb?arch=all",
            "pkg:a//b///c/#../d/./e/": "pkg:a/b/c#d/e",
            "pkg:a/b?z=1&c=2": "pkg:a/b?c=2&z=1",
        }.items():
            self.assertEqual(parse(text).text(), other)

    def test_what_is_none(self):
        for text, reason in {
            "cpe:/a:x": "begin as one",
            "pkg:": "no type",
            "pkg:1/x": "no type",
            "pkg:npm": "no name",
            "pkg:npm/": "no name",
            "pkg:npm/a@1%2": "no two digits",
            "pkg:npm/a b": "a space",
            "pkg:npm/a?x": "a key and a value",
            "pkg:npm/a?x=1&X=2": "is there twice",
        }.items():
            with self.assertRaises(PurlFault) as caught:
                parse(text)
            self.assertIn(reason, str(caught.exception), text)

    def test_what_is_one_at_a_glance_is_one_by_its_parts(self):
        def is_one(judge, text):
            try:
                judge(text)
            except PurlFault:
                return False
            return True

        draw = random.Random(7)
        pieces = ["npm/", "a", "b", "/", "@", "1", "?", "x=", "&", "%20", "%40", "%", "#", "=", "deb", " ", ".", "y=2", ":"]
        texts = ["pkg:" + "".join(draw.choices(pieces, k=draw.randint(1, 9))) for _ in range(20_000)]
        judged = [(text, is_one(check, text)) for text in texts]
        self.assertEqual(judged, [(text, is_one(parse, text)) for text in texts])
        self.assertGreater(sum(one for _, one in judged), 500)

    def test_epochs_and_sources(self):
        self.assertEqual([parse(f"pkg:rpm/a@{one}").full_version() for one in ("1", "1?epoch=0", "1?epoch=2", "3:1?epoch=3")], ["1", "1", "2:1", "3:1"])
        for wanted, text, source in [
            ("pkg:deb/a@1-1?upstream=b", "pkg:deb/a@1-1", "b@1-1"),
            ("pkg:deb/a@1-1?upstream=b%401-2", "pkg:deb/a@1-1", "b@1-2"),
            ("pkg:deb/a@1-1", "pkg:deb/a@1-1", "a@1-1"),
            ("pkg:deb/a@1-1?epoch=1&upstream=b", "pkg:deb/a@1-1?epoch=1", "b@1:1-1"),
            ("pkg:deb/a@1?upstream=c", "pkg:deb/a@1?upstream=c", "b"),
            ("pkg:npm/a@1", "pkg:npm/a@1", "b"),
            ("pkg:deb", "pkg:deb", "b"),
            ("", "", "b"),
        ]:
            self.assertEqual(with_upstream(text, source), wanted)


class Samples(ListCase):
    def test_what_is_read_of_each(self):
        found = [line for path in LISTED for line in (f"# {path.name}", *rendered(lists.read(path.name, path.read_bytes())))]
        self.assertEqual(found, (PACKAGES / "read.out").read_text().splitlines())

    def test_each_text_is_of_one_form_alone(self):
        for path in TEXTS:
            text = texts.text_of(path.read_text())
            self.assertEqual(len([form.__name__ for form in lists._TEXTS if form.fits(text)]), 1, path.name)

    def test_line_ends_of_windows_marks_of_order_and_other_encodings(self):
        for path in TEXTS:
            data = path.read_bytes()
            wanted = list(rendered(lists.read("x", data)))
            windows = data.replace(b"\n", b"\r\n")
            for other in (windows, b"\xef\xbb\xbf" + windows, windows.decode().encode("utf-16"), b"\n\n" + data.replace(b"\n", b"\n\n")):
                found = [line.rstrip() for line in rendered(lists.read("x", other))]
                with self.subTest(f"{path.name} {other[:3]!r}"):
                    if b"\n\n" in other and b"\r" not in other:
                        # (then lines have other numbers)
                        found, here = ([line for line in lines if " line " not in line and "shop" not in line] for lines in (found, wanted))
                        self.assertEqual(found, here)
                    else:
                        self.assertEqual(found, wanted)

    def test_cut_off_is_said(self):
        for path in TEXTS:
            data = path.read_bytes()
            if path.name == "purls.txt":
                continue
            for cut in (len(data) * 2 // 3, len(data) - 1):
                if data[cut - 1 : cut] == b"\n":
                    cut -= 2
                try:
                    said = self.odd(data[:cut])
                except FeedFault as fault:
                    # (half a line of a short list is too much)
                    self.assertIn("no software list", str(fault))
                else:
                    self.assertIn(("list", texts.CUT_OFF), said, f"{path.name} {cut}")
        for path in LISTED:
            if path.suffix == ".json":
                data = path.read_bytes()
                for cut in (len(data) // 3, len(data) - 3):
                    self.refused(data[:cut])

    def test_doubled_lists_have_the_same(self):
        for path in TEXTS:
            data = path.read_bytes()
            once, twice = self.read(data), self.read(data + data)
            self.assertEqual({(one.names, one.purl) for one in twice.components()}, {(one.names, one.purl) for one in once.components()}, path.name)
            odd_once, odd_twice = ([one for one in listed.parts if isinstance(one, lists.Oddity)] for listed in (once, twice))
            self.assertGreaterEqual(len(odd_twice), len(odd_once))

    def test_of_another_tool(self):
        joined = {path.name: path.read_bytes() for path in TEXTS}
        for name, data in joined.items():
            for other, more in joined.items():
                if name == other or {name, other} in ({"dpkg-query.txt", "dpkg-sources.txt"}, {"rpm-columns.txt", "rpm-versions.txt"}):
                    continue
                # (nothing is lost: the text is refused, or the lines of the other form are reported)
                try:
                    listed = self.read(data + more)
                except FeedFault:
                    continue
                self.assertTrue(any(isinstance(one, lists.Oddity) for one in listed.all()), f"{name} {other}")


class Texts(ListCase):
    def test_debian_without_a_head(self):
        self.assertEqual(self.purls(DEBIAN_L), ["pkg:deb/openssl@3.0.11-1~deb12u2?arch=amd64"])

    def test_states_of_debian(self):
        rows = "".join(f"{state}  {state.lower()}-x  1.0-1  all  text\n" for state in ("ii", "hi", "iU", "iF", "iW", "it", "iH", "pi", "ri", "ui", "rc", "pn", "un", "hc"))
        listed = self.read(rows + "iHR openssl  3.0.11-1~deb12u2  amd64  toolkit\n")
        self.assertEqual(len(listed.components()), 11)
        self.assertEqual(listed.remarks, ["list: removed, with its configuration left: 2 packages", "list: not installed: 2 packages"])

    def test_columns_that_a_terminal_cut(self):
        head = "||/ Name           Version        Architecture Description\n+++-==============-==============-============-=================================\n"
        rows = "ii  libcurl3-gnutl 7.88.1-10+deb1 amd64        easy-to-use client-side URL transfer library\nii  zlib1g:amd64   1:1.2.13.dfsg- amd64        compression\nii  bash           5.2.15-2+b2    amd64        GNU Bourne Again SHell\n"
        listed = self.read(head + rows)
        self.assertEqual([one.purl for one in listed.components()], ["pkg:deb/bash@5.2.15-2%2Bb2?arch=amd64"])
        self.assertEqual([one.id for one in listed.parts if isinstance(one, lists.Oddity)], ["line 3 of list", "line 4 of list"])

    def test_a_head_in_another_language_and_without_architectures(self):
        head = "Gewünscht=Unbekannt/Installieren/R=Entfernen/P=Vollständig Löschen/Halten\n| Status=Nicht/Installiert/Config/U=Entpackt/halb konFiguriert/\n         Halb installiert/Trigger erWartet/Trigger anhängig\n|/ Fehler?=(kein)/R=Neuinstallation notwendig (Status, Fehler: GROSS=schlecht)\n||/ Name           Version      Beschreibung\n+++-==============-============-============================================\n"
        listed = self.read(head + "ii  bash           4.2-4        GNU Bourne Again SHell\n")
        self.assertEqual(listed.components(), [Component("bash 4.2-4", (), "deb", "pkg:deb/bash@4.2-4")])
        self.assertEqual([one.id for one in listed.parts if isinstance(one, lists.Oddity)], ["line 3 of list"])

    def test_a_paragraph_that_lacks_what_it_needs(self):
        good = "Package: a\nStatus: install ok installed\nVersion: 1-1\n\n"
        for bad in ("Package: b\nVersion: 1\n", "Package: B b\nStatus: install ok installed\nVersion: 1\n", "Package: b\nStatus: install ok installed\nVersion: x y\n"):
            reason = "a paragraph without a good Package, Status or Version begins there"
            self.assertEqual(self.odd(good + bad), [("line 5 of list", reason)])
        self.assertEqual(self.odd(good + "Package: b\nStatus: install ok installed\n"), [("b", texts.NO_VERSION)])
        self.assertEqual(self.odd(good + "<<<<<<<\n"), [("line 5 of list", "no line of /var/lib/dpkg/status")])
        # (an index of available packages)
        self.assertIn("no software list", self.refused("Package: a\nVersion: 1-1\nFilename: pool/a.deb\n"))

    def test_names_and_versions_of_which_nobody_says_whose_they_are(self):
        for text in ("express\t4.17.1\nlodash\t4.17.20\n", "bash 5.2.026-2\nfilesystem 2023.09.18-1\nglibc 2.38-7\npacman 6.0.2-8\n", "openssl@3 3.1.4\nwget 1.21.4\n"):
            self.assertIn("no software list", self.refused(text))

    def test_epochs_of_rpm(self):
        self.assertEqual(
            self.purls("bind-32:9.16.23-14.el9_3.x86_64\nbash-0:5.1.8-6.el9_1.x86_64\n"),
            ["pkg:rpm/bind@9.16.23-14.el9_3?arch=x86_64&epoch=32", "pkg:rpm/bash@5.1.8-6.el9_1?arch=x86_64"],
        )

    def test_versions_of_apk_that_are_not_installed(self):
        line = "a-1.0-r0 x86_64 {b} (MIT)"
        self.assertEqual(self.read(f"{line} [installed]\n{line}\n").remarks, ["list: not installed: 1 package"])

    def test_editable_packages(self):
        text = "a==1\n# Editable Git install with no remote (b-c==2.0)\n-e /b\n-e /unknown\nd @ https://example.com/d-1.whl#sha256=00\n"
        self.assertEqual(self.purls(text), ["pkg:pypi/a@1", "pkg:pypi/b-c@2.0", "pkg:pypi/d"])
        self.assertEqual(self.odd(text), [("line 4 of list", "an editable package without a name"), ("d", texts.NO_VERSION)])

    def test_words_of_pip_beside_its_table(self):
        table = "Package Version\n------- -------\nx       1.0\nWARNING: You are using pip version 21.2.4; however, version 23 is available.\n"
        self.assertEqual((self.purls(table), self.odd(table)), (["pkg:pypi/x@1.0"], [("line 4 of list", "no line of pip list")]))

    def test_modules_of_go(self):
        bad = "module x\ngo 1.20\nrequire (\n\tgithub.com/a/b v1.0.0\n\tnot a module\n)\nreplace github.com/a/b => nowhere\nrequire y\nfuture z\n"
        self.assertEqual(self.purls(bad), ["pkg:golang/github.com/a/b@v1.0.0"])
        self.assertEqual([id for id, _ in self.odd(bad)], [f"line {number} of list" for number in (5, 7, 8, 9)])

    def test_locks_of_the_wrong_form(self):
        for lock, reason in {
            '{"lockfileVersion":4,"packages":{}}': "package-lock.json of version 4 is not read",
            '{"lockfileVersion":"3","packages":{}}': "package-lock.json of version 3 is not read",
            '{"lockfileVersion":true,"packages":{}}': "package-lock.json of version True is not read",
            '{"lockfileVersion":3}': "it has no packages",
            '{"lockfileVersion":2,"packages":[]}': "its packages are no object",
            '{"lockfileVersion":1,"dependencies":[]}': "its dependencies are no object",
        }.items():
            self.assertEqual(self.refused(lock)[: len(reason)], reason)
        places = {"node_modules/a": 7, "node_modules/b": {"version": 1}, "node_modules/c": {"name": [], "version": "1"}, "node_modules/d": {"version": "1.0.0", "dependencies": []}}
        lock = json.dumps({"lockfileVersion": 3, "packages": places})
        self.assertEqual(self.purls(lock), ["pkg:npm/b", "pkg:npm/d@1.0.0"])
        wanted = [("a", "no object"), ("b", "its version is no text"), ("b", texts.NO_VERSION), ("c", "its name is no text"), ("d", "its dependencies are no object")]
        self.assertEqual(self.odd(lock), [(f"node_modules/{name}", reason) for name, reason in wanted])

    def test_texts_of_other_kinds_are_refused(self):
        for text in (
            "The quick brown fox\njumps over the lazy dog\n",
            "openssl\nbash\n",
            "name,version\nopenssl,3.0\n",
            "root:x:0:0:root:/root:/bin/bash\n",
            "total 8\n-rw-r--r-- 1 root root 5 Jan  1 00:00 a\n",
            "bash.x86_64    5.1.8-6.el9_1    @baseos\n",
            "GEM\n  remote: https://rubygems.org/\n  specs:\n    rack (2.2.3)\n",
            "# yarn lockfile v1\n\nlodash@^4.17.15:\n  version \"4.17.20\"\n",
            "Django>=4\nrequests~=2.28\n",
            "package main\n\nimport \"fmt\"\n",
            "module x\n",
            "2024-05-02 08:15:00 install openssl:amd64 <none> 3.0.11\n",
            "a-b-c\n",
            "SPDXVersion: SPDX-2.3\n",
        ):
            with self.subTest(text):
                self.assertIn("dpkg-query -W", self.refused(text))
        for data in (b"\x7fELF\x02\x01\x01\x00\xff", b"\xff\xfea", b"Package: \xff\n"):
            self.assertIn("no text", self.refused(data))

    def test_package_urls_of_lists_that_are_none(self):
        components = [{"bom-ref": "a", "purl": "pkg:deb"}, {"bom-ref": "b", "cpe": "cpe:/a:x", "purl": "openssl"}, {"bom-ref": "c", "purl": "pkg:npm/c@1"}]
        identity = [{"concludedValue": "pkg:npm/d@%"}]
        components.append({"bom-ref": "d", "evidence": {"identity": identity}})
        text = json.dumps({"bomFormat": "CycloneDX", "components": components})
        self.assertEqual([one.id for one in self.read(text).components()], ["b", "c"])
        self.assertEqual(
            self.odd(text),
            [
                ("a", "its purl is no package URL: it has no name"),
                ("b", "its purl is no package URL: it doesn't begin as one"),
                ("d", "a text of its evidence is no package URL: a percent sign has no two digits behind it"),
            ],
        )

    def test_a_bad_line_among_good_ones(self):
        good = "".join(f"lib{number}:amd64\t1.{number}-1\n" for number in range(20))
        self.assertEqual(self.odd(good + "???\n"), [("line 21 of list", "no line of dpkg-query -W")])

    def test_long_lists_and_long_lines_are_fast(self):
        rows = [f"ii  lib{number}:amd64  1:1.{number}.dfsg-1+deb12u1  amd64  text of some length about it" for number in range(5000)]
        queried = ["\t".join(row.split()[1:3]) for row in rows]
        frozen = [f"package-{number}==1.{number}" for number in range(5000)]
        rpms = [f"lib{number}-1.{number}-1.el9.x86_64" for number in range(5000)]
        for lines in (rows, queried, frozen, rpms, [f"pkg:deb/debian/lib{number}@1.{number}" for number in range(5000)]):
            text = "\n".join([*lines, ""]).encode()
            began = time.process_time()
            self.assertEqual(len(self.read(text).components()), 5000)
            self.assertLess(time.process_time() - began, 0.5)
        for piece in (" ", "a-", "1-", "a ", "-r1 [", ") [", "a==", "/a", "#egg=a", "\t1"):
            began = time.process_time()
            self.refused("x" + piece * 100_000 + "\n")
            self.assertLess(time.process_time() - began, 1, piece)


@needs_cpe
class Machines(ListCase):
    def test_lines_of_machines(self):
        path = self.file("web-1.txt", DEBIAN_L)
        status, lines, said = self.recipe("inventory", "--machines", path)
        self.assertEqual(json.loads(lines[0])["components"], [{"id": "openssl 3.0.11-1~deb12u2", "names": [], "kind": "deb", "purl": "pkg:deb/openssl@3.0.11-1~deb12u2?arch=amd64"}])
        self.assertEqual(status, 1)

    def test_what_is_removed_is_said(self):
        path = self.file("web-1.txt", DEBIAN_L + b"rc  exim4  4.96-15  amd64  mailer\n")
        self.assertIn("remark web-1.txt: removed, with its configuration left: 1 package", self.recipe("inventory", "--machines", path)[2])
        self.assertIn("remark web-1.txt: removed, with its configuration left: 1 package", self.recipe("inventory", path)[2])


if __name__ == "__main__":
    unittest.main()
