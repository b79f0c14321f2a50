#!/usr/bin/env python3
"""Looks at pages of report.py in headless Chromium: python3 browser.py CHROMIUM FOLDER. A line for each that is right.

The filter is asked by the address. Odd names would load from a server that listens here; that nobody asks it is looked
at too. The status is 1 where something is wrong.
"""
import html
import http.server
import json
import os
import subprocess
import sys
import threading
from pathlib import Path

from pages import Page, machine, odd_table, table, verdict

RECIPES = Path(__file__).resolve().parents[2] / "recipes"
MACHINES = 10_000
# A page of many machines opens in 2 seconds on an idle machine; a check may run beside others.
MOST_SECONDS = 10
# The milliseconds of its own time after which the browser writes the page; if a busy machine was too slow, it is asked
# again.
LOOKS = (1_000, 10_000, 60_000)
# This script is put into a copy of a page, to measure it from inside; the page itself lets no other script run.
INSIDE = """<script>addEventListener("load", () => requestAnimationFrame(() => setTimeout(() => {
const root = document.documentElement;
document.title = `${Math.round(performance.now())} ${root.scrollWidth} ${innerWidth}`;
parent.postMessage(document.title, "*"); })))</script></body>"""
# A telephone is narrower than any window of Chromium.
TELEPHONE = """<!DOCTYPE html><title></title><script>onmessage = (event) => { document.title = event.data; }</script>
<iframe src="PAGE" width="360" height="800"></iframe>"""
# In a frame without scripts: what a reader sees of a page, in the order on the page, also below the window.
WITHOUT_SCRIPTS = """<!DOCTYPE html><title></title><iframe sandbox="allow-same-origin" srcdoc="PAGE" width="360" height="800"></iframe>
<script>addEventListener("load", () => {
const page = frames[0].document, seen = document.createElement("pre");
for (const one of page.querySelectorAll("*")) one.style.contentVisibility = "visible";
seen.textContent = page.body.innerText;
document.body.append(seen); })</script>"""


class Browser:
    def __init__(self, program, folder):
        self._program, self._folder = program, Path(folder)
        self.asked, self.wrong = [], 0

    def page(self, name, value):
        """The page of a table, and its address."""
        scan, path = self._folder / f"{name}.json", self._folder / f"{name}.html"
        scan.write_text(json.dumps(value), encoding="utf-8")
        with path.open("wb") as out:
            # (what was left out makes its status 1)
            run = subprocess.run([sys.executable, str(RECIPES / "report.py"), str(scan)], stdout=out, stderr=subprocess.DEVNULL)
        if run.returncode not in (0, 1):
            sys.exit(f"report.py ends with status {run.returncode}")
        return path

    def inside(self, path):
        """A copy of the page whose title says how long it took, how wide it is, and how wide its window."""
        text = path.read_text(encoding="utf-8")
        copy = path.with_suffix(".inside.html")
        lines = [line for line in text.replace("</body>", INSIDE).split("\n") if "Content-Security-Policy" not in line]
        copy.write_text("\n".join(lines), encoding="utf-8")
        return copy

    def on_telephone(self, path):
        """A page that has such a copy, as narrow as on a telephone, and the copy's title."""
        around = path.with_suffix(".telephone.html")
        around.write_text(TELEPHONE.replace("PAGE", self.inside(path).name), encoding="utf-8")
        return around

    def without_scripts(self, path):
        """A page that shows what is seen of this one without scripts."""
        around = path.with_suffix(".quiet.html")
        around.write_text(WITHOUT_SCRIPTS.replace("PAGE", html.escape(path.read_text(encoding="utf-8"))), encoding="utf-8")
        return around

    def look(self, path, fragment="", after=LOOKS[0]):
        """The page in the browser after it was loaded."""
        words = ["--headless", "--disable-gpu", "--no-first-run", "--disable-background-networking", "--disable-component-update"]
        words += [f"--user-data-dir={self._folder}/browser", "--window-size=1200,900", f"--virtual-time-budget={after}"]
        if os.geteuid() == 0:
            words.append("--no-sandbox")
        address = path.as_uri() + (f"#{fragment}" if fragment else "")
        run = subprocess.run([self._program, *words, "--dump-dom", address], capture_output=True, timeout=120)
        return run.stdout.decode(errors="replace")

    def judge(self, what, found, wanted):
        if found == wanted:
            print(f"right: {what}")
        else:
            self.wrong += 1
            print(f"WRONG: {what}: {str(found)[:300]} in place of {str(wanted)[:300]}")

    def serve(self):
        """The address of a server that notes all requests."""
        asked = self.asked

        class Noting(http.server.BaseHTTPRequestHandler):
            def do_GET(self):
                asked.append(self.path)
                self.send_error(404)

            def log_message(self, *_):
                pass

        server = http.server.HTTPServer(("127.0.0.1", 0), Noting)
        threading.Thread(target=server.serve_forever, daemon=True).start()
        return f"http://127.0.0.1:{server.server_port}"


def filters(browser, path, value):
    rows = [
        (one["name"], "ACCEPTED" if "accepted" in row else row["verdict"], row["id"])
        for one in value["machines"]
        for row in one["verdicts"]
    ]
    for fragment, is_left in (
        ("", lambda machine, truth, id: True),
        ("q=openssl", lambda machine, truth, id: id == "CVE-1"),
        ("q=OPENSSL+web-", lambda machine, truth, id: id == "CVE-1" and machine.startswith("web-")),
        ("q=zeros%20decide", lambda machine, truth, id: id == "CVE-2"),
        ("truth=UNKNOWN", lambda machine, truth, id: truth == "UNKNOWN"),
        ("truth=ACCEPTED", lambda machine, truth, id: truth == "ACCEPTED"),
        ("machine=web-1", lambda machine, truth, id: machine == "web-1"),
        ("machine=eb-1", lambda machine, truth, id: machine.startswith("web-1")),
        ("machine=web-1&truth=TRUE&q=cve", lambda machine, truth, id: (machine, truth) == ("web-1", "TRUE")),
        ("q=is+not+there", lambda machine, truth, id: False),
        ("q=accepted", lambda machine, truth, id: False),
        ("q=%3Cimg", lambda machine, truth, id: "<img" in machine or "<img" in id),
        ("CVE-1", lambda machine, truth, id: True),
    ):
        found = Page(browser.look(path, fragment))
        left = [id for machine, truth, id in rows if is_left(machine, truth, id)]
        wanted = len(left)
        browser.judge(f"the page at #{fragment}: {wanted} of {len(rows)} rows", (len(found.shown()), len(found.rows)), (wanted, len(rows)))
        browser.judge(f"the page at #{fragment}: the advisories of these rows", cards(found), len(set(left)))
        nothing = next(attributes for _, attributes in found.elements if attributes.get("id") == "nothing")
        browser.judge(f"the page at #{fragment}: that nothing is left is said where it is so", "hidden" in nothing, wanted > 0)
        shown = f"Shown: {wanted} rows of "
        browser.judge(f"the page at #{fragment}: its count", "=" in fragment, any(shown in text for text in found.texts))


def cards(found):
    """How many advisories are shown."""
    return sum(one.get("class") == "advisory" and "hidden" not in one for _, one in found.elements)


def minds_names(browser, path):
    text = browser.look(path)
    browser.judge("odd names: the title of the page stays", "<title>Advisories by machine</title>" in text, True)
    elements = Page(text).elements
    links = [attributes.get("href") for tag, attributes in elements if tag == "a"]
    browser.judge("machines: each is a link to its rows", [links.count(f"#machine=web-{number}") for number in (1, 10)], [1, 1])
    tags = [tag for tag, _ in elements]
    browser.judge("odd names: one script, and nothing that loads", [tags.count(tag) for tag in ("script", "img", "iframe", "link")], [1, 0, 0, 0])
    for copy, width in ((browser.inside(path), 1200), (browser.on_telephone(path), 360)):
        _, wide, window = title_of(browser, copy)
        browser.judge(f"odd names: nothing is wider than a window of {width}", (wide <= window, window), (True, width))
    browser.judge("odd names: nobody was asked for anything", browser.asked, [])


def reads_without_scripts(browser):
    told = verdict("CVE-1", "TRUE", title="A product has a fault.", score=6.5)
    hangs = verdict("CVE-2", "UNKNOWN", title="Another has one.", score=9.8, hangsOn=["only zeros decide"])
    path = browser.page("plain", table(machine("web-1", told, hangs), machine("web-2", told), left_out=[("CVE-3", "not analysed")]))
    seen = browser.look(browser.without_scripts(path)).partition("<pre>")[2]
    text = html.unescape(seen.partition("</pre>")[0])
    browser.judge("without scripts: that there is no filter is said, and none is there", ("there is no filter" in text, "Clear" in text), (True, False))
    lines = [line.strip() for line in text.replace("\t", "\n").split("\n")]
    wanted = ["CVE-3", "CVE-2", "Another has one.", "only zeros decide", "CVE-1", "A product has a fault."]
    places = [next((place for place, line in enumerate(lines) if one in line), None) for one in wanted]
    browser.judge("without scripts: what was not read, and the advisories by score", None not in places and places == sorted(places), True)
    # (beside an advisory, and in the list of machines)
    browser.judge("without scripts: each row, and each machine", [text.count(one) for one in ("web-1", "web-2")], [3, 2])


def title_of(browser, copy):
    """The numbers in the title of a copy of a page."""
    for after in LOOKS:
        words = browser.look(copy, after=after).split("<title>")[1].split("<")[0].split()
        if len(words) == 3 and all(word.isdigit() for word in words):
            return [int(word) for word in words]
    sys.exit(f"{copy.name}: the browser didn't come to its end")


def opens_many(browser):
    told = {"title": "A product has a fault. " * 6, "score": 7.5, "severity": "HIGH", "url": "https://nvd.nist.gov/vuln/detail/"}
    rows = [verdict(f"CVE-2024-{place}", "TRUE", **told) for place in range(500)]
    machines = [machine(f"host-{place:05}.example.org", *(rows[(place * 7 + one * 31) % 500] for one in range(10))) for place in range(MACHINES)]
    path = browser.page("many", table(*machines, asked=500))
    milliseconds, *_ = title_of(browser, browser.inside(path))
    print(f"{MACHINES} machines with ten rows each: open after {milliseconds / 1000:.1f} seconds")
    browser.judge(f"{MACHINES} machines open in time", milliseconds < 1000 * MOST_SECONDS, True)
    found = Page(browser.look(path, "machine=host-00017.example.org"))
    browser.judge(f"{MACHINES} machines: the rows of one of them", len(found.shown()), 10)


def main():
    browser = Browser(*sys.argv[1:3])
    value = odd_table(browser.serve())
    path = browser.page("odd", value)
    filters(browser, path, value)
    minds_names(browser, path)
    reads_without_scripts(browser)
    empty = browser.page("empty", table(machine("m"), {"name": "bare", "items": 0}))
    browser.judge("a page without rows", "FALSE on 1 machine with items" in browser.look(empty), True)
    opens_many(browser)
    sys.exit(browser.wrong > 0)


if __name__ == "__main__":
    main()
