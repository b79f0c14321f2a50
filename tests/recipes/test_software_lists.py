"""Software lists, form by form, and the messages about bad ones."""
import json
import unittest

from recipe_case import SAMPLES, RecipeCase, fs, needs_cpe

from cpe_recipes import lists
from cpe_recipes.components import Component
from cpe_recipes.feeds import FeedFault
from cpe_recipes.lists import kinds, systems

A, B, C = fs("v", "a", "1"), fs("v", "b", "1"), "cpe:/a:v:c:1"
LISTS = SAMPLES / "lists"


def cyclonedx(*components, version="1.6", **more):
    return {"bomFormat": "CycloneDX", "specVersion": version, "components": list(components), **more}


def spdx2(*packages):
    return {"spdxVersion": "SPDX-2.3", "packages": list(packages)}


def spdx3(*elements):
    return {"@context": "https://spdx.org/rdf/3.0.1/spdx-context.jsonld", "@graph": list(elements)}


def syft(*artifacts, **more):
    return {"artifacts": list(artifacts), "descriptor": {"name": "syft", "version": "1.4.1"}, **more}


def trivy(*results, **more):
    return {"SchemaVersion": 2, "ArtifactName": "x", "Results": list(results), **more}


def packages(*some, kind="debian"):
    return {"Target": "t", "Class": "os-pkgs", "Type": kind, "Packages": list(some)}


def unread(count, where):
    if count == 1:
        return f"1 text that begins with cpe: or pkg: is where none is read, at {where}"
    return f"{count} texts that begin with cpe: or pkg: are where none is read, the first at {where}"


class ListCase(RecipeCase):
    def read(self, value):
        return lists.read("list", value if isinstance(value, bytes) else json.dumps(value).encode())


class Forms(ListCase):
    def components(self, value):
        listed = self.read(value)
        self.assertEqual([one for one in listed.all() if isinstance(one, lists.Oddity)], [])
        return listed.components()

    def odd(self, value):
        return [(one.id, one.reason) for one in self.read(value).all() if isinstance(one, lists.Oddity)]

    def test_cyclonedx_has_names_in_properties(self):
        one = {"bom-ref": "a", "cpe": A, "purl": "pkg:deb/debian/a@1", "properties": [
            {"name": "syft:cpe23", "value": B}, {"name": "ours", "value": C}, {"name": "syft:cpe23", "value": A}, {"name": "x"}, {"name": "y", "value": "z"}]}
        self.assertEqual(self.components(cyclonedx(one)), [Component("a", (A, B, C), "deb", "pkg:deb/debian/a@1")])

    def test_cyclonedx_has_names_in_evidence_of_either_version(self):
        method = {"technique": "filename", "confidence": 1, "value": B}
        new = {"bom-ref": "n", "evidence": {"identity": [{"field": "cpe", "concludedValue": A, "methods": [method, {"value": "a.jar"}]}, {"field": "purl", "concludedValue": "pkg:npm/n@1"}]}}
        old = {"bom-ref": "o", "evidence": {"identity": {"field": "cpe", "methods": [method]}}}
        self.assertEqual(self.components(cyclonedx(new)), [Component("n", (A, B), "npm", "pkg:npm/n@1")])
        self.assertEqual(self.components(cyclonedx(old, version="1.5")), [Component("o", (B,))])

    def test_cyclonedx_has_a_platform_and_components_below_what_it_is_about(self):
        about = {"type": "application", "name": "shop", "purl": "pkg:npm/shop@1", "components": [{"bom-ref": "in", "cpe": A}]}
        system = {"type": "operating-system", "name": "ubuntu", "version": "22.04"}
        listed = self.read(cyclonedx({"bom-ref": "b", "cpe": B, "components": [system]}, metadata={"component": about}))
        self.assertEqual(listed.components(), [Component("in", (A,)), Component("b", (B,))])
        self.assertEqual(listed.platform, Component("ubuntu 22.04", ("cpe:2.3:o:canonical:ubuntu_linux:22.04:*:*:*:*:*:*:*",)))

    def test_a_second_platform_is_a_component(self):
        first, second = ({"type": "operating-system", "bom-ref": one, "cpe": name} for one, name in (("x", A), ("y", B)))
        listed = self.read(cyclonedx(first, second))
        self.assertEqual((listed.platform, listed.components()), (Component("x", (A,)), [Component("y", (B,))]))

    def test_kinds_of_tools_where_there_is_no_package_url(self):
        one = {"name": "a", "cpe": A, "properties": [{"name": "syft:package:type", "value": "java-archive"}]}
        other = {"name": "b", "cpe": B, "properties": [{"name": "aquasecurity:trivy:PkgType", "value": "redhat"}]}
        self.assertEqual([it.kind for it in self.components(cyclonedx(one, other))], ["maven", "rpm"])

    def test_spdx_2_has_references(self):
        def references(*some):
            return [{"referenceCategory": "SECURITY", "referenceType": kind, "referenceLocator": text} for kind, text in some]

        one = {"SPDXID": "p", "externalRefs": references(("cpe23Type", A), ("http://spdx.org/rdf/references/cpe22Type", C), ("purl", "pkg:pypi/p@1"), ("swh", "x"))}
        system = {"SPDXID": "o", "name": "alpine", "versionInfo": "3.18.4", "primaryPackagePurpose": "OPERATING-SYSTEM"}
        listed = self.read(spdx2(system, one))
        self.assertEqual(listed.components(), [Component("p", (A, C), "pypi", "pkg:pypi/p@1")])
        self.assertEqual(listed.platform.names[1], "cpe:2.3:o:alpinelinux:alpine_linux:3.18:*:*:*:*:*:*:*")

    def test_spdx_3_has_external_identifiers(self):
        def identifier(kind, text):
            return {"type": "ExternalIdentifier", "externalIdentifierType": kind, "identifier": text}

        terms = "https://spdx.org/rdf/3.0.1/terms"
        kept = {"@id": "_:kept", **identifier("cpe23", B)}
        elements = [
            {"type": "CreationInfo", "@id": "_:info"},
            {"type": "software_Package", "spdxId": "p", "externalIdentifier": [identifier("cpe23", A), identifier("cpe22", C), identifier("packageUrl", "pkg:gem/p@1")]},
            {"@type": [f"{terms}/Software/Package"], "@id": "q", "externalIdentifier": identifier("cpe22", C), "software_packageUrl": "pkg:cargo/q@1"},
            {"type": "ai_AIPackage", "name": "r", "software_packageVersion": "1", "externalIdentifier": ["_:kept"]},
            {"type": "software_File", "spdxId": "f"},
            kept,
        ]
        wanted = [Component("p", (A, C), "gem", "pkg:gem/p@1"), Component("q", (C,), "cargo", "pkg:cargo/q@1"), Component("r 1", (B,))]
        self.assertEqual(self.components(spdx3(*elements)), wanted)
        alone = {"@context": ["https://spdx.org/rdf/3.0.1/spdx-context.jsonld"], **elements[1]}
        self.assertEqual(self.components(alone), wanted[:1])

    def test_syft_has_names_as_texts_and_as_objects(self):
        one = {"id": "7", "name": "a", "version": "1", "type": "go-module", "cpes": [{"cpe": A, "source": "syft-generated"}, {"cpe": B}], "purl": ""}
        other = {"id": "8", "name": "b", "version": "1", "type": "deb", "cpes": [A, C], "purl": "pkg:deb/debian/b@1"}
        listed = self.read(syft(one, other, {"name": "c", "type": "binary"}, distro={"id": "rhel", "versionID": "9.2", "cpeName": "cpe:/o:redhat:enterprise_linux:9::baseos"}))
        self.assertEqual(listed.components(), [Component("a 1", (A, B), "golang"), Component("b 1", (A, C), "deb", "pkg:deb/debian/b@1"), Component("c")])
        self.assertEqual((listed.platform.id, listed.platform.names[0], len(listed.platform.names)), ("rhel 9.2", "cpe:/o:redhat:enterprise_linux:9::baseos", 4))
        self.assertIsNone(self.read(syft(one, distro={})).platform)

    def test_trivy_has_package_urls_alone(self):
        one, other = {"ID": "a@1", "Name": "a", "Identifier": {"PURL": "pkg:deb/debian/a@1"}}, {"Name": "b", "Version": "1"}
        listed = self.read(trivy(packages(one, other), {"Class": "secret"}, Metadata={"OS": {"Family": "debian", "Name": "12.4"}}))
        self.assertEqual(listed.components(), [Component("a@1", (), "deb", "pkg:deb/debian/a@1"), Component("b 1", (), "deb")])
        self.assertEqual([name.split(":")[5] for name in listed.platform.names], ["12.4", "12", "12.0"])

    def test_kinds_and_systems_that_are_not_known(self):
        self.assertEqual([kinds.of_purl(one) for one in ("pkg:DEB/x", "pkg://npm/x", "pkg:generic/x", "x", "pkg:/", "")], ["deb", "npm", "", "", "", ""])
        self.assertEqual([kinds.of_tool(one) for one in ("deb", "python", "binary", None, ["deb"])], ["deb", "pypi", "", "", ""])
        self.assertEqual([systems.names_of(*one) for one in (("arch", "1"), ("debian", "sid"), ("debian", None), (7, "1"))], [[]] * 4)

    def test_what_looks_like_a_name_where_none_is_read_is_counted(self):
        deep = {"name": "a", "cpe": A, "pedigree": {"ancestors": [{"cpe": B, "purl": "pkg:npm/b@1"}]}}
        self.assertEqual(self.odd(cyclonedx(deep)), [("list", unread(2, "components[0].pedigree.ancestors[0].cpe"))])
        listed = cyclonedx({"bom-ref": "pkg:npm/a@1", "cpe": A}, dependencies=[{"ref": "pkg:npm/a@1", "dependsOn": ["pkg:npm/b@1"]}])
        self.assertEqual(self.odd(listed), [])
        self.assertEqual(self.odd(cyclonedx({"cpe": A, "properties": [{"value": "pkg:npm/other@1"}]})), [("list", unread(1, "components[0].properties[0].value"))])
        self.assertEqual(self.odd(spdx2({"SPDXID": "p", "comment": "CPE:/a:v:p"})), [("list", unread(1, "packages[0].comment"))])
        self.assertEqual(self.odd(spdx3({"type": "software_File", "cpe": A})), [("list", unread(1, "@graph[0].cpe"))])
        self.assertEqual(self.odd(syft({"name": "a", "cpes": [A], "metadata": {"x": [[A]]}}, source={"metadata": {"labels": {"cpe": C}}})), [("list", unread(2, "artifacts[0].metadata.x[0][0]"))])
        self.assertEqual(self.odd(trivy(packages({"ID": "a", "CPEs": [A]}))), [("list", unread(1, "Results[0].Packages[0].CPEs[0]"))])

    def test_two_documents_in_one_list(self):
        text = json.dumps(cyclonedx({"bom-ref": "a", "cpe": A})) + json.dumps(cyclonedx({"bom-ref": "b", "cpe": B, "old": [A]}))
        listed = self.read(text.encode())
        self.assertEqual(listed.components(), [Component("a", (A,)), Component("b", (B,))])
        self.assertEqual(self.odd(text.encode()), [("list", unread(1, "components[0].old[0]"))])


class Bad(ListCase):
    """A value of the wrong type is reported; the values beside it are read."""

    def parts(self, value):
        return [(one.id, one.reason) if isinstance(one, lists.Oddity) else (one.id, *one.names) for one in self.read(value).all()]

    def test_of_cyclonedx(self):
        good = {"bom-ref": "g", "cpe": A}
        bad = {
            "its cpe is no text": {"cpe": 7},
            "its purl is no text": {"purl": [1]},
            "its properties are no list": {"properties": {}},
            "one of its properties is no object": {"properties": ["x"]},
            "its evidence is no object": {"evidence": []},
            "its identity are no list": {"evidence": {"identity": "cpe"}},
            "one of its identity is no object": {"evidence": {"identity": ["cpe"]}},
            "its methods are no list": {"evidence": {"identity": {"methods": 7}}},
            "its components are no list": {"components": {"cpe": 1}},
        }
        for reason, one in bad.items():
            self.assertEqual(self.parts(cyclonedx({"bom-ref": "b", **one}, good)), [("b", reason), ("g", A)])
            self.assertEqual(self.parts(cyclonedx({"bom-ref": "b", "cpe": B, "properties": [{"value": C}], **one}))[-1], ("b", reason))
        self.assertEqual(self.parts(cyclonedx([], good)), [("component 1 of list", "not of the published form"), ("g", A)])
        self.assertEqual(self.parts(cyclonedx(good, metadata=[]))[0], ("list", "its metadata are no object"))
        self.assertEqual(self.parts(cyclonedx(good, metadata={"component": "x"}))[0], ("component 1 of list", "not of the published form"))
        kept = {"bom-ref": "k", "cpe": 7, "properties": [{"name": "syft:cpe23", "value": B}]}
        self.assertEqual(self.parts(cyclonedx(kept)), [("k", B), ("k", "its cpe is no text")])

    def test_of_spdx_2(self):
        for reason, references in {
            "its externalRefs are no list": {},
            "one of its externalRefs is no object": ["cpe"],
            "the type of a reference is no text": [{"referenceType": 7}],
            "the locator of a reference is no text": [{"referenceType": "cpe23Type", "referenceLocator": [A]}],
        }.items():
            found = self.parts(spdx2({"SPDXID": "b", "externalRefs": references}, "x"))
            self.assertEqual((found[0], found[1]), (("b", reason), ("package 2 of list", "not of the published form")))

    def test_of_spdx_3(self):
        for reason, identifiers in {
            "one of its externalIdentifier is no object": ["_:not-there"],
            "the type of an externalIdentifier is no text": [{"identifier": "x"}],
            "an externalIdentifier is no text": [{"externalIdentifierType": "cpe23", "identifier": 7}],
        }.items():
            found = self.parts(spdx3({"type": "software_Package", "spdxId": "b", "externalIdentifier": identifiers}, 7))
            self.assertEqual(found, [("b", reason), ("element 2 of list", "not of the published form")])

    def test_of_syft(self):
        for reason, one in {
            "its cpes are no list": {"cpes": A},
            "one of its cpes is no text": {"cpes": [7]},
            "its purl is no text": {"purl": {}},
        }.items():
            self.assertIn(("b", reason), self.parts(syft({"name": "b", **one}, "x")))
        self.assertEqual(self.parts(syft("x", distro="debian")), [("list", "its distro is no object"), ("artifact 1 of list", "not of the published form")])

    def test_of_trivy(self):
        self.assertEqual(self.parts(trivy(packages({"ID": "a", "Identifier": "x"}, 7)))[0], ("a", "its Identifier is no object"))
        self.assertEqual(self.parts(trivy(packages(), {"Target": "u", "Packages": {}}, 7)), [("u", "its Packages are no list"), ("result 3 of list", "not of the published form")])
        self.assertEqual(self.parts(trivy(packages(), {"Target": "u", "Class": "lang-pkgs"})), [("u", "it has no Packages")])
        self.assertEqual(self.parts(trivy(packages(), Metadata={"OS": "debian"})), [("list", "its Metadata.OS is no object")])

    def test_members_that_come_twice(self):
        for text in ('{"bomFormat":"CycloneDX","components":[{"cpe":"%s"}],"components":[]}' % A, '{"spdxVersion":"SPDX-2.3","packages":[{"SPDXID":"a","SPDXID":"b"}]}'):
            with self.assertRaises(FeedFault) as caught:
                self.read(text.encode())
            self.assertIn(" twice", str(caught.exception))

    def test_samples_that_are_cut_off_or_of_another_tool(self):
        for path in sorted(LISTS.glob("*-?.*json")):
            data = path.read_bytes()
            for cut in (len(data) // 3, len(data) * 2 // 3, len(data) - 3):
                with self.subTest(f"{path.name} {cut}"), self.assertRaises(FeedFault):
                    self.read(data[:cut])
        for value in ({"matches": [], "descriptor": {"name": "grype"}}, {"products": []}, {"SchemaVersion": "2", "Results": []}, {"spdxVersion": 7}):
            with self.subTest(value), self.assertRaises(FeedFault):
                self.read(value)

    @needs_cpe
    def test_no_bad_list_ends_as_machine_that_is_not_affected(self):
        feeds = ["--dictionary", str(LISTS / "dictionary.json"), "--advisories", str(LISTS / "advisories.json")]
        for name, value in {"cut": b'{"bomFormat":"CycloneDX","components":[', "grype": {"matches": []}, "none": cyclonedx(), "type": syft() | {"artifacts": {}}}.items():
            status, lines, said = self.scan(*feeds, "--lists", self.file(f"{name}.json", value))
            self.assertEqual((status, lines, len(said)), (2, [], 1), said)
        for name, value in {"number": cyclonedx({"bom-ref": "x", "cpe": 7}), "purls": cyclonedx({"purl": "pkg:npm/x@1"}), "odd": spdx2(7)}.items():
            status, lines, said = self.scan(*feeds, "--lists", self.file(f"{name}.json", value))
            self.assertEqual((status, lines[1].split()), (1, [name, "no", "items"]))
            self.assertIn(f"left out {name}: no items", said)


if __name__ == "__main__":
    unittest.main()
