"""Names for packages: their URLs, the table names.txt, and what a dictionary says they may be.

What is wanted was written by hand, of what the packages are.
"""
import json
import sys
import time
import unittest
from pathlib import Path

sys.path.insert(0, str(Path(__file__).resolve().parent))

from recipe_case import RecipeCase, fs  # noqa: E402 (it knows where the recipes are)
from cpe_recipes import names_table, package_urls  # noqa: E402
from cpe_recipes.candidates import candidates_of, forms_of  # noqa: E402
from cpe_recipes.components import Component, Machine  # noqa: E402
from cpe_recipes.console import Fatal  # noqa: E402
from cpe_recipes.feeds import FormFault  # noqa: E402
from cpe_recipes.names_table import Product, Tables, read_table  # noqa: E402
from cpe_recipes.package_names import name_machines  # noqa: E402
from cpe_recipes.product_index import ByName, ProductIndex  # noqa: E402

TOMCAT = "pkg:deb/debian/tomcat9@9.0.43-2~deb11u6?arch=all&distro=debian-11&upstream=tomcat9"


def entry(name):
    return json.dumps({"do": "entry", "name": name})


def index_of(*names, wanted=None):
    return ProductIndex(map(entry, names), wanted or {name.split(":")[4] for name in names})


def found(purl, *names):
    """The products that a package may be, in words."""
    return [one.product.words() for one in candidates_of(package_urls.read(purl), index_of(*names))]


class PackageUrls(unittest.TestCase):
    def test_what_they_say(self):
        for text, wanted in {
            "pkg:deb/debian/libc6@2.36-9%2Bdeb12u3?arch=amd64&upstream=glibc": ("deb", "debian", "libc6", "2.36-9+deb12u3", "glibc", ""),
            "pkg:deb/debian/mount@2.38.1-5?upstream=util-linux%402.38.1-5%2Bb1": ("deb", "debian", "mount", "2.38.1-5", "util-linux", "2.38.1-5+b1"),
            "pkg:rpm/redhat/openssl-libs@3.0.7-24.el9?epoch=1&upstream=openssl-3.0.7-24.el9.src.rpm": (
                "rpm", "redhat", "openssl-libs", "1:3.0.7-24.el9", "openssl", "3.0.7-24.el9",
            ),
            "pkg:rpm/fedora/a@1-2?epoch=0": ("rpm", "fedora", "a", "1-2", None, ""),
            "pkg:deb/debian/a@2%3A1-2?epoch=2": ("deb", "debian", "a", "2:1-2", None, ""),
            "pkg:npm/%40angular/core@12.0.0": ("npm", "@angular", "core", "12.0.0", None, ""),
            "pkg:npm/@angular/core": ("npm", "@angular", "core", "", None, ""),
            "PKG:PyPI/Django_Rest.Framework@3.1#x/y": ("pypi", "", "django-rest-framework", "3.1", None, ""),
            "pkg:golang/github.com/hashicorp/consul/api/v2@v2.1.0": ("golang", "github.com/hashicorp/consul", "api", "v2.1.0", None, ""),
            "pkg:maven/org.apache.tomcat/tomcat-coyote@9.0.1?type=jar": ("maven", "org.apache.tomcat", "tomcat-coyote", "9.0.1", None, ""),
        }.items():
            with self.subTest(text):
                read = package_urls.read(text)
                source = read.source.name if read.source else None
                self.assertEqual((*(getattr(read.package, key) for key in ("type", "namespace", "name")), read.version, source, read.source_version), wanted)

    def test_what_is_none(self):
        for text in ("", "pkg:", "pkg:deb", "pkg:deb/", "pkg:deb//", "openssl", "cpe:/a:x:y", "pkg:7/x", "pkg:deb/%20@1"):
            with self.subTest(text), self.assertRaises(FormFault):
                package_urls.read(text)


class Table(RecipeCase):
    def tables(self, text):
        return Tables([read_table(self.file("names.txt", text))])

    def words(self, text, purl):
        found = self.tables(text).find(package_urls.read(purl))
        return None if found is None else [",".join(one.words() for one in choice) for choice in found.line.choices]

    def test_a_line_counts_for_its_package(self):
        for line, purl, wanted in (
            ("pkg:deb/debian/openssl openssl:openssl", "pkg:deb/debian/openssl@1", ["openssl:openssl"]),
            ("pkg:deb/debian/openssl openssl:openssl", "pkg:deb/ubuntu/openssl@1", None),
            ("pkg:deb/openssl openssl:openssl", "pkg:deb/ubuntu/openssl@1", ["openssl:openssl"]),
            ("pkg:deb/openssl openssl:openssl", "pkg:rpm/redhat/openssl@1", None),
            ("pkg:deb/openssl openssl:openssl", "pkg:deb/debian/libssl3@1?upstream=openssl", ["openssl:openssl"]),
            ("pkg:npm/lodash lodash:lodash", "pkg:npm/%40types/lodash@1", None),
            ("pkg:npm/@angular/core angular:angular", "pkg:npm/%40angular/core@1", ["angular:angular"]),
            ("pkg:deb/postgresql-* a:b", "pkg:deb/debian/postgresql-15@1", ["a:b"]),
            ("pkg:deb/postgresql-* a:b", "pkg:deb/debian/postgresql-common@1", None),
            ("pkg:deb/python* a:b", "pkg:deb/debian/python3.11@1", ["a:b"]),
            ("pkg:deb/linux-image-*-amd64 o:a:b", "pkg:deb/debian/linux-image-6.1.0-13-amd64@1", ["o:a:b"]),
            ("pkg:deb/python*-minimal a:b", "pkg:deb/debian/python3.11-minimal@1", ["a:b"]),
            ("pkg:golang/github.com/a/b a:b", "pkg:golang/github.com/a/b/v3@v3.0.1", ["a:b"]),
            ("pkg:pypi/Zope_Interface a:b # so", "pkg:pypi/zope.interface@1", ["a:b"]),
            ("pkg:deb/linux o:linux:linux_kernel", "pkg:deb/debian/linux@6.1", ["o:linux:linux_kernel"]),
            ("pkg:deb/nginx nginx:nginx,f5:nginx acme:nginx", "pkg:deb/debian/nginx@1", ["nginx:nginx,f5:nginx", "acme:nginx"]),
            ("pkg:deb/tzdata -", "pkg:deb/debian/tzdata@1", []),
            ("pkg:nuget/c c\\+\\+:c\\,d", "pkg:nuget/C@1", ["c\\+\\+:c\\,d"]),
        ):
            with self.subTest(line, purl=purl):
                self.assertEqual(self.words(f"# a comment\n\n{line}\r\n", purl), wanted)

    def test_what_says_more_counts_before_what_says_less(self):
        lines = ["pkg:deb/lib* a:number", "pkg:deb/lib1 a:whole", "pkg:deb/debian/lib1 a:debian", "pkg:deb/src a:source"]
        purls = ["pkg:deb/debian/lib1@1?upstream=src", "pkg:deb/ubuntu/lib1@1", "pkg:deb/ubuntu/lib2@1?upstream=src", "pkg:deb/x/y@1?upstream=src"]
        wanted = [["a:debian"], ["a:whole"], ["a:number"], ["a:source"]]
        self.assertEqual([self.words("\n".join(lines), purl) for purl in purls], wanted)

    def test_the_table_of_the_user_counts_first(self):
        mine, theirs = self.file("mine", "pkg:deb/a me:a"), self.file("theirs", "pkg:deb/debian/a they:a\npkg:deb/b they:b")
        tables = Tables([read_table(mine), read_table(theirs)])
        names = [tables.find(package_urls.read(f"pkg:deb/debian/{name}@1")).line.choices[0][0].words() for name in "ab"]
        self.assertEqual(names, ["me:a", "they:b"])

    def test_what_is_no_line_is_refused_with_its_place(self):
        for text, reason in {
            "openssl openssl:openssl": "it is no package URL, since it doesn't begin as one: openssl",
            "pkg:deb/a": "there is no product and no - after pkg:deb/a",
            "pkg:deb/a b": "no vendor:product: b",
            "pkg:deb/a b:": "no vendor:product: b:",
            "pkg:deb/a x:b:c": "no vendor:product: x:b:c",
            "pkg:deb/a b:c:d:e": "no vendor:product: b:c:d:e",
            "pkg:deb/a b:c,": "no vendor:product: ",
            "pkg:deb/a b:c -": "no vendor:product: -",
            "pkg:deb/a b:*": "no vendor:product: b:*",
            "pkg:deb/a b:c+d": "no vendor:product: b:c+d",
            "pkg:deb/a cpe:2.3:a:b:c": "no vendor:product: cpe:2.3:a:b:c",
            "pkg:deb/a@1 b:c": "a package has neither a version nor qualifiers here: pkg:deb/a@1",
            "pkg:deb/a?arch=b b:c": "a package has neither a version nor qualifiers here: pkg:deb/a?arch=b",
            "pkg:deb/a*b* b:c": "the name of a package has one * at most: pkg:deb/a*b*",
            "pkg:deb/a b:c\npkg:deb/a b:d": "pkg:deb/a is in names.txt line 1 too, with other names",
        }.items():
            with self.subTest(text), self.assertRaises(Fatal) as caught:
                self.tables(text)
            number = len(text.splitlines())
            self.assertEqual(str(caught.exception), f"names.txt line {number}: {reason}")
        for data, reason in ((b"pkg:deb/a \xff:c", "it is no UTF-8 at byte 11"), (b"", None), (b"pkg:deb/a b:c\npkg:deb/a b:c\n", None)):
            with self.subTest(data):
                if reason is None:
                    self.tables(data)
                else:
                    with self.assertRaisesRegex(Fatal, reason):
                        self.tables(data)

    def test_the_table_that_comes_along(self):
        lines = read_table(names_table.TABLE)
        counts = {kind: sum(line.package.type == kind for line in lines) for kind in ("deb", "rpm", "apk", "pypi", "npm", "golang", "maven")}
        self.assertTrue(len(lines) >= 300 and all(count >= 30 for count in counts.values()), counts)
        tables = Tables([lines])
        for purl, wanted in {
            "pkg:deb/debian/libssl3@3.0.11-1?upstream=openssl": "openssl:openssl",
            "pkg:deb/debian/libssl3@3.0.11-1": "openssl:openssl",
            "pkg:deb/debian/libc6@2.36": "gnu:glibc",
            "pkg:deb/ubuntu/bsdutils@2.37?upstream=util-linux": "kernel:util-linux",
            "pkg:deb/debian/libpython3.11-stdlib@3.11.2": "python:python",
            "pkg:deb/debian/postgresql-15@15.4": "postgresql:postgresql",
            "pkg:rpm/redhat/glibc-minimal-langpack@2.34": "gnu:glibc",
            "pkg:rpm/rocky/curl-minimal@7.76": "haxx:curl",
            "pkg:apk/alpine/libcrypto3@3.1.4?upstream=openssl": "openssl:openssl",
            "pkg:apk/alpine/ssl_client@1.36?upstream=busybox": "busybox:busybox",
            "pkg:pypi/Django@4.2": "djangoproject:django",
            "pkg:npm/lodash@4.17.20": "lodash:lodash",
            "pkg:golang/golang.org/x/crypto@v0.1.0": "golang:crypto",
            "pkg:golang/stdlib@1.21.1": "golang:go",
            "pkg:maven/org.apache.logging.log4j/log4j-core@2.14.1": "apache:log4j",
        }.items():
            with self.subTest(purl):
                found = tables.find(package_urls.read(purl))
                self.assertEqual(found and found.line.choices[0][0].words(), wanted)


class Candidates(unittest.TestCase):
    def test_forms(self):
        for purl, near, loose in (
            (TOMCAT, ["tomcat9"], ["tomcat"]),
            ("pkg:deb/debian/libssl3@3?upstream=openssl", ["openssl", "libssl3"], ["libssl", "ssl3", "ssl"]),
            ("pkg:deb/debian/python3-requests@2", ["python3-requests", "requests"], []),
            ("pkg:rpm/fedora/nodejs-lodash@2", ["nodejs-lodash", "lodash"], []),
            ("pkg:deb/debian/golang-github-gin-gonic-gin-dev@1", ["golang-github-gin-gonic-gin-dev", "gonic-gin", "gin"], None),
            ("pkg:npm/%40angular/core@1", ["core", "angular"], []),
            ("pkg:golang/github.com/hashicorp/consul/api@v1", ["api", "consul"], []),
            ("pkg:golang/github.com/gin-gonic/gin@v1", ["gin"], []),
            ("pkg:maven/org.apache.tomcat/tomcat-coyote@9", ["tomcat-coyote", "tomcat"], []),
            ("pkg:deb/debian/libfoo-bar-dev@1", ["libfoo-bar-dev"], ["libfoo-bar", "foo-bar"]),
        ):
            with self.subTest(purl):
                forms = forms_of(package_urls.read(purl))
                self.assertEqual(list(forms.near), near)
                if loose is not None:
                    self.assertLessEqual(set(loose), set(forms.loose), forms.loose)

    def test_first_comes_what_has_a_version_of_its_line(self):
        names = [fs("acme", "widget", "7.1"), fs("acme", "widget", "7.2"), fs("other", "widget", "2.4.1")]
        self.assertEqual(found("pkg:deb/debian/widget@2.4.9-1", *names), ["other:widget", "acme:widget"])
        self.assertEqual(found("pkg:deb/debian/widget@1:7.1.9-1", *names), ["acme:widget", "other:widget"])
        self.assertEqual(found("pkg:deb/debian/widget@3-1", *names), ["acme:widget", "other:widget"])

    def test_what_is_written_for_something_else_is_none(self):
        names = [fs("a", "slider", "1.0", target="wordpress"), fs("b", "slider", "1.0", target="node.js"), fs("c", "slider", "1.0")]
        self.assertEqual(found("pkg:npm/slider@1.0.2", *names), ["b:slider", "c:slider"])
        self.assertEqual(found("pkg:pypi/slider@1.0.2", *names), ["c:slider"])
        self.assertEqual(set(found("pkg:deb/debian/slider@1.0.2", *names)), {"b:slider", "c:slider"})
        self.assertEqual(found("pkg:composer/wpackagist-plugin/slider@1.0.2", *names)[0], "a:slider")

    def test_what_is_in_rust_alone_is_none_of_a_distribution(self):
        names = [fs("a", "time", "0.1", target="rust"), fs("b", "twig", "1.13", target="node.js"), fs("symfony", "twig", "2.0")]
        self.assertEqual(found("pkg:deb/debian/time@1.9-0.2", *names), [])
        self.assertEqual(found("pkg:deb/debian/librust-time-dev@0.1.43-1", *names), ["a:time"])
        self.assertEqual(found("pkg:deb/debian/php-twig@3.5.1-1", *names), ["symfony:twig"])

    def test_names_in_one_word_and_of_modules(self):
        names = [fs("gnome", "networkmanager", "1.42"), fs("prometheus", "client_golang", "1.11"), fs("x", "golang", "1.14"), fs("getbootstrap", "bootstrap", "3.3")]
        self.assertEqual(found("pkg:deb/debian/network-manager@1.42.4-1", *names), ["gnome:networkmanager"])
        self.assertEqual(found("pkg:deb/debian/golang-github-prometheus-client-golang-dev@1.14.0-3", *names), ["prometheus:client_golang"])
        self.assertEqual(found("pkg:deb/debian/libjs-bootstrap@3.4.1-3", *names), ["getbootstrap:bootstrap"])

    def test_looser_forms_only_where_there_is_nothing_else(self):
        names = [fs("apache", "tomcat", "9.0.43"), fs("xmlsoft", "libxml2", "2.9"), fs("acme", "xml", "2.9")]
        self.assertEqual(found(TOMCAT, *names), ["apache:tomcat"])
        self.assertEqual(found("pkg:deb/debian/libxml2@2.9.14", *names), ["xmlsoft:libxml2"])

    def test_what_separates_words_makes_no_difference(self):
        names = [fs("arm", "mbed_tls", "2.28.3"), fs("gnome", "networkmanager", "1.42.4"), fs("a", "b-c.d", "1.0")]
        for purl, wanted in (
            ("pkg:deb/debian/libmbedcrypto7@2.28.3-1?upstream=mbedtls", ["arm:mbed_tls"]),
            ("pkg:deb/debian/network-manager@1.42.4-1", ["gnome:networkmanager"]),
            ("pkg:pypi/b_c-d@1.0", ["a:b-c.d"]),
        ):
            self.assertEqual(found(purl, *names), wanted)

    def test_a_vendor_before_the_name(self):
        names = [fs("acme", "agent", "5.1"), fs("other", "agent", "5.1"), fs("apache", "airflow", "2.0"), fs("org", "server", "1")]
        self.assertEqual(found("pkg:deb/debian/acme-agent@5.1-2", *names), ["acme:agent"])
        self.assertEqual(found("pkg:pypi/apache-airflow@2.3", *names), ["apache:airflow"])
        self.assertEqual(found("pkg:deb/debian/mongodb-org-server@5", *names), [])

    def test_names_are_found_in_each_form_of_a_record(self):
        records = [
            '{"do":"entry","name":"cpe:/a:acme:wid%2bget:1.0"}',
            '{"do":"entry","name":{"part":"a","vendor":"Acme","product":"suite","version":"1\\\\.0"}}',
            '{"do":"entry","name":"cpe:2.3:a:ACME:Upper:1.0:*:*:*:*:*:*:*"}',
            '{"do":"entry","name":"cpe:2.3:a:acme:c\\\\+\\\\+:1.0:*:*:*:*:*:*:*"}',
            '{"do":"entry","name":"cpe:2.3:o:acme:suite:1.0:*:*:*:*:*:*:*"}',
            "no record", '{"do":"entry"}', "[7]", '{"do":"entry","name":7}',
        ]
        wanted = ["wid\\+get", "suite", "upper", "c\\+\\+"]
        # (so it is too with those records alone that have such names)
        for some in (records, ByName([*records, entry(fs("acme", "other", "1"))]).of([*wanted, "su-ite"])):
            index = ProductIndex(some, wanted)
            self.assertEqual([index.has("acme", name) for name in (*wanted, "none")], [True] * 4 + [False])
            self.assertEqual([(one.product, one.count) for one in index.of("suite")], [(Product("a", "acme", "suite"), 1)])
        self.assertEqual(list(ByName(records).of(["upper"])), records[2:3])

    def test_many_components_and_entries_take_no_time_for_each_pair(self):
        records = [entry(fs(f"v{n % 5000}", f"p{n}", "1.0")) for n in range(200_000)]
        components = [Component(f"c{n}", (), "deb", f"pkg:deb/debian/p{n * 7}@1.0-1") for n in range(5000)]
        machine = Machine("m", components)
        begin = time.process_time()
        name_machines([machine], Tables([]), records)
        self.assertLess(time.process_time() - begin, 5)
        self.assertEqual(sum(bool(one.supposed) for one in machine.components), 5000)


if __name__ == "__main__":
    unittest.main()
