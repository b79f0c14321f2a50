"""The pages of the service: the same as the JSON, without scripts too, and in headless Chromium with keys, live, in
light and dark."""
import html
import json
import re
import shutil
import subprocess
import unittest
import urllib.parse
from html.parser import HTMLParser

from browser import Browser
from service_case import ROOT, SAMPLES, ServiceCase

CHROMIUM = shutil.which("chromium") or shutil.which("chromium-browser") or shutil.which("google-chrome")
RANGES = SAMPLES / "ranges"
VOID = {"meta", "link", "input", "br"}
OPTIONAL = {"li", "td", "th", "tr", "dt", "dd", "option", "p"}


class Page(HTMLParser):
    """The rows of the tables of a page, its links, and whether its elements are closed in order."""

    def __init__(self, data):
        super().__init__()
        self.rows, self.links, self.faults, self._open = [], [], [], []
        self.feed(data)
        self.faults += [tag for tag in self._open if tag not in OPTIONAL]

    def handle_starttag(self, tag, attributes):
        if tag == "tr":
            self.rows.append([])
        elif tag in ("td", "th"):
            self.rows[-1].append("")
        elif tag == "a":
            self.links.append(dict(attributes).get("href"))
        if tag not in VOID:
            self._open.append(tag)

    def handle_endtag(self, tag):
        while self._open and self._open[-1] != tag and self._open[-1] in OPTIONAL:
            self._open.pop()
        if not self._open or self._open.pop() != tag:
            self.faults.append(tag)

    def handle_data(self, data):
        if self.rows and self.rows[-1]:
            self.rows[-1][-1] += data


class PagesTest(ServiceCase):
    def samples(self):
        server = self.server("--samples", "--rate", "100000", "--workers", "1")
        server.settled()
        return server

    def page(self, server, path):
        status, data, kind = server.asked("GET", path, Accept="text/html,application/xhtml+xml")
        self.assertEqual((status, kind), (200, "text/html; charset=utf-8"), path)
        page = Page(data.decode())
        self.assertEqual(page.faults, [], path)
        return page, data.decode()

    def test_the_samples_are_those_of_scan(self):
        server = self.samples()
        paths = [path for path in sorted(RANGES.iterdir()) if path.name.endswith((".cdx.json", ".spdx.json", "-1.txt", "-2.txt"))]
        lists = {path.name.split(".")[0]: path.read_bytes() for path in paths}
        wanted, _ = self.scanned(lists, [RANGES / "dictionary.json"], [RANGES / "advisories.json"], [RANGES / "matches.json"])
        self.assertEqual({one["name"] for one in server.ask("GET", "/machines?limit=1000")[1]["machines"]}, set(wanted))
        for name, row in wanted.items():
            self.assertEqual(self.judged(server, name), row)
            page, _ = self.page(server, f"/machines/{name}?limit=1000")
            found = {cells[0]: cells[1] for cells in page.rows[1:]}
            self.assertEqual(found, {one["id"]: "perhaps" if one.get("perhaps") else one["verdict"] for one in row["verdicts"]})

    def test_each_link_leads_somewhere(self):
        server = self.samples()
        waiting, seen = ["/machines", "/advisories", "/changes?limit=10", "/names?q=openssl", "/name?cpe=cpe:/a:openssl:openssl", "/health"], set()
        while waiting and len(seen) < 150:
            path = waiting.pop(0)
            if path in seen or not path.startswith("/"):
                continue
            seen.add(path)
            page, _ = self.page(server, path)
            waiting += [one for one in page.links if one.startswith("/") and not one.startswith("/certificates") or len(seen) < 20]
        self.assertGreater(len(seen), 60)

    def test_a_deprecated_name_is_drawn_with_what_it_leads_to(self):
        server = self.samples()
        _, found = server.ask("GET", "/names?q=redislabs")
        old = next(one for one in found["names"] if one["deprecated"])
        _, value = server.ask("GET", f"/name?{urllib.parse.urlencode({'cpe': old['name']})}")
        self.assertTrue(value["chain"]["isEntry"])
        self.assertEqual([step["kind"] for step in value["chain"]["steps"] if step["name"] == old["name"]], ["NAME_CORRECTION"])
        self.assertEqual(value["chain"]["ends"], old["successors"])
        _, text = self.page(server, f"/name?{urllib.parse.urlencode({'cpe': old['name']})}")
        drawn = re.search(r'<ul class="chain"><li>.*?<ul class="chain"><li>.*?</ul></ul>', text)
        self.assertIsNotNone(drawn)
        self.assertIn(html.escape(old["successors"][0]), drawn[0])

    def test_a_certificate_in_words(self):
        server = self.samples()
        for machine, advisory in (("legacy-1", "CVE-2024-98002"), ("legacy-1", "CVE-2024-98009"), ("web-2", "CVE-2024-98001")):
            _, value = server.ask("GET", f"/certificates/{machine}/{advisory}")
            self.assertEqual(value["check"], [f"proof {advisory} holds"])
            _, text = self.page(server, f"/certificates/{machine}/{advisory}")
            self.assertIn(f"proof {advisory} holds", text)
            self.assertIn(html.escape(value["words"][0]), text)

    def test_refusals_are_pages_too(self):
        server = self.server()
        status, data, kind = server.asked("GET", "/machines/none", Accept="text/html")
        self.assertEqual((status, kind), (404, "text/html; charset=utf-8"))
        self.assertIn(b"there is no machine none", data)


class DocumentTest(ServiceCase):
    @unittest.skipUnless(shutil.which("curl"), "there is no curl")
    def test_the_commands_of_the_document(self):
        server = self.server()
        text = (ROOT / "docs" / "SERVICE.md").read_text(encoding="utf-8")
        lines = re.search(r"(?m)^    U=(?:.*\n    )*.*$", text)[0].replace("8765", str(server.port))
        run = subprocess.run(["sh", "-ec", lines.replace("curl ", "curl -s ")], cwd=ROOT, capture_output=True, text=True, check=True)
        self.assertIn('"state":"judged"', run.stdout)
        found = json.loads(run.stdout[run.stdout.rindex('{"name":"web-1"') :])
        self.assertEqual({one["verdict"] for one in found["verdicts"]}, {"TRUE"})

    def test_each_address_is_in_the_document(self):
        text = (ROOT / "docs" / "SERVICE.md").read_text(encoding="utf-8")
        _, value = self.server().ask("GET", "/openapi.json")
        for path in value["paths"]:
            self.assertIn(path.partition("{")[0].rstrip("/"), text)


@unittest.skipUnless(CHROMIUM, "there is no chromium")
class BrowserTest(ServiceCase):
    def setUp(self):
        super().setUp()
        self.web = Browser(CHROMIUM)
        self.addCleanup(self.web.end)
        self.site = self.server("--samples", "--rate", "100000", "--workers", "1")
        self.site.settled()
        self.address = f"http://127.0.0.1:{self.site.port}"

    def test_it_works_with_a_keyboard(self):
        web = self.web
        web.open(f"{self.address}/machines")
        web.press("Tab")
        self.assertEqual(web.value("document.activeElement.className"), "skip")
        web.press("Enter")
        self.assertEqual(web.value("location.hash"), "#main")
        web.press("Tab")
        self.assertEqual(web.value("document.activeElement.name"), "q")
        web.write("legacy")
        web.press("Enter")
        web.until("location.search.includes('legacy') && document.readyState === 'complete'")
        self.assertEqual(web.value("document.querySelectorAll('tbody tr').length"), 1)
        web.value("document.querySelector('tbody a').focus()")
        web.press("Enter")
        web.until("location.pathname === '/machines/legacy-1' && document.readyState === 'complete'")
        self.assertEqual(web.value("document.querySelector('h1').textContent"), "legacy-1")
        self.assertEqual(web.value("document.querySelectorAll('tbody tr').length"), 5)

    def test_it_shows_what_changed(self):
        web = self.web
        web.open(f"{self.address}/machines/legacy-1")
        web.until("document.documentElement.dataset.live === 'yes'")
        self.assertEqual(web.value("document.querySelectorAll('tbody tr').length"), 5)
        self.assertEqual(self.site.put("legacy-1", "cpe:/a:acme:agent:5.1")[0], 200)
        web.until("document.querySelectorAll('tbody tr').length !== 5")
        wanted = [one["id"] for one in self.site.ask("GET", "/machines/legacy-1")[1]["verdicts"]]
        self.assertEqual(web.value("Array.from(document.querySelectorAll('tbody th'), (one) => one.textContent.trim())"), wanted)
        self.assertIn("changed since the page was opened", web.value("document.getElementById('live').textContent"))

    def test_it_works_without_scripts(self):
        web = self.web
        web.scripts(False)
        web.open(f"{self.address}/advisories")
        text = web.send("DOM.getDocument", depth=-1)
        self.assertIn("CVE-2024-98003", json.dumps(text))
        web.open(f"{self.address}/machines?q=web-&kind=TRUE")
        text = json.dumps(web.send("DOM.getDocument", depth=-1))
        self.assertIn('"web-1"', text)
        self.assertNotIn('"legacy-1"', text)

    def test_light_and_dark(self):
        web, found = self.web, {}
        web.open(f"{self.address}/machines/legacy-1")
        for scheme in ("light", "dark"):
            web.scheme(scheme)
            found[scheme] = web.value("[document.body, document.querySelector('.kind.TRUE')].map((one) => getComputedStyle(one).color)")
            for front, back in self.pairs():
                self.assertGreaterEqual(contrast(front, back), 4.5, (scheme, front, back))
        self.assertNotEqual(found["light"], found["dark"])

    def pairs(self):
        """The colours of texts that are shown, each with the colour behind it."""
        return self.web.value("""Array.from(document.querySelectorAll('main *, nav a, h1'), (one) => {
            let behind = one;
            while (behind && getComputedStyle(behind).backgroundColor === 'rgba(0, 0, 0, 0)') behind = behind.parentElement;
            const has = Array.from(one.childNodes).some((child) => child.nodeType === 3 && child.textContent.trim());
            return has ? [getComputedStyle(one).color, getComputedStyle(behind || document.body).backgroundColor] : null;
        }).filter(Boolean)""")

    def test_nothing_is_wider_than_a_telephone(self):
        web = self.web
        web.width(360)
        for path in ("/machines", "/machines/legacy-1", "/advisories", "/changes", "/names?q=openssl", "/certificates/legacy-1/CVE-2024-98002"):
            web.open(f"{self.address}{path}")
            self.assertLessEqual(web.value("document.documentElement.scrollWidth"), 360, path)

    def test_nothing_of_the_data_runs(self):
        web = self.web
        name = "cpe:2.3:a:acme:agent:5.1:*:*:*:*:*:*:*"
        title = "<img src=x onerror=\"document.title='broken'\"><script>document.title='broken'</script>"
        match = {"vulnerable": True, "criteria": name, "matchCriteriaId": "1"}
        cve = {"id": "CVE-<script>document.title=1</script>", "descriptions": [{"lang": "en", "value": title}]}
        cve["configurations"] = [{"nodes": [{"operator": "OR", "cpeMatch": [match]}]}]
        self.assertEqual(self.site.feed({"vulnerabilities": [{"cve": cve}]})[0], 202)
        self.site.settled()
        hostile = "%3Cscript%3Edocument.title%3D1%3C/script%3E"
        for path in ("/machines/legacy-1?limit=1000", "/advisories?limit=1000", "/changes?limit=1000", f"/machines?q={hostile}"):
            web.open(f"{self.address}{path}")
            self.assertNotIn("broken", web.value("document.title"))
            self.assertEqual(web.value("document.querySelectorAll('main script, main img').length"), 0, path)


def contrast(front, back):
    """The contrast of two colours, as WCAG 2.1 has it."""
    one, other = sorted((luminance(front), luminance(back)), reverse=True)
    return (one + 0.05) / (other + 0.05)


def luminance(colour):
    parts = [int(part) / 255 for part in re.findall(r"\d+", colour)[:3]]
    red, green, blue = (part / 12.92 if part <= 0.03928 else ((part + 0.055) / 1.055) ** 2.4 for part in parts)
    return 0.2126 * red + 0.7152 * green + 0.0722 * blue


if __name__ == "__main__":
    unittest.main()
