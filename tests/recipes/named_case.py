"""Shared by the tests of names for packages: a small dictionary, advisories on it, and scans of lists of package
URLs."""
import json
import subprocess

from recipe_case import RecipeCase, fs
from test_platforms import advisory, page

WEBSERVER = "pkg:deb/debian/webserver9@9.0.43-2~deb11u6?arch=all&distro=debian-11&upstream=webserver9"


def entry(name):
    return json.dumps({"do": "entry", "name": name})


def ranged(id, criteria, start, end):
    match = {"vulnerable": True, "criteria": criteria, "matchCriteriaId": f"{id} {criteria}", "versionStartIncluding": start, "versionEndExcluding": end}
    return advisory(id, match)


def listed(*components):
    return {"bomFormat": "CycloneDX", "specVersion": "1.5", "components": [{"bom-ref": f"c{n}", **one} for n, one in enumerate(components)]}


class NamedCase(RecipeCase):
    def setUp(self):
        super().setUp()
        entries = [fs("acme", "webserver", "9.0.43"), fs("acme", "widget", "2.4"), fs("other", "widget", "2.4"), fs("openssl", "openssl", "3.0.11")]
        entries += [fs("python", "requests", "2.28.0", target="python"), fs("acme", "fork", "1.0")]
        products = [{"cpe": {"cpeName": name, "deprecated": False}} for name in entries]
        advisories = [
            ranged("CVE-2024-1", fs("acme", "webserver"), "9.0.0", "9.0.50"),
            ranged("CVE-2024-2", fs("acme", "widget"), "2.0", "3.0"),
            ranged("CVE-2024-3", fs("openssl", "openssl"), "3.0.0", "3.0.13"),
            ranged("CVE-2024-4", fs("python", "requests", target="python"), "2.3.0", "2.31.0"),
            advisory("CVE-2024-5", {"vulnerable": True, "criteria": fs("acme", "fork", "1.0"), "matchCriteriaId": "x"}),
        ]
        self.feeds = ["--dictionary", self.file("dictionary.json", page("products", *products)), "--advisories", self.file("advisories.json", page("vulnerabilities", *advisories))]

    def verdicts(self, *words, purls=(), components=(), names=None):
        """The status, the verdicts that aren't FALSE by their ids with the last column, and the messages."""
        listing = self.file("m.json", listed(*({"purl": purl} for purl in purls), *components))
        given = [] if names is None else ["--names", self.file("names.txt", names)]
        status, lines, said = self.scan(*self.feeds, "--lists", listing, *given, *words)
        rows = [line.split() for line in lines if " CVE-" in line]
        return status, {row[2]: row[1] for row in rows}, lines, said

    def run_hint(self, hint, status=0):
        """The output of the command in a hint, run as it is printed."""
        command = hint.partition("; to list them: ")[2]
        run = subprocess.run(["sh", "-c", command], capture_output=True, text=True, check=False)
        self.assertEqual(run.returncode, status, (command, run.stderr))
        return run.stdout.splitlines()
