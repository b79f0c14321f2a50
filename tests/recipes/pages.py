"""Shared by the tests of report.py: a table with odd names, and a page as its reader sees it."""
import html.parser

LONG = "long-" + "x" * 5_000
RIGHT_TO_LEFT = "\u05e9\u05e8\u05ea\u200f-1"
VOID = {"meta", "br", "input"}


def hostile(address):
    """Names that would load or run something, or escape from their element, if they were read as HTML."""
    return [
        f"<script>document.title='broken';fetch('{address}/a')</script>",
        f"<img src={address}/b onerror=\"document.title='broken'\">",
        f"\"'><link rel=stylesheet href={address}/c>",
        f"</li></ul></details><iframe src='{address}/d'></iframe>",
        f"</style></script></title><body background={address}/e>",
        f"<!-- &lt; &amp; &#0; ]]> <style>@import url({address}/f)</style>",
        LONG,
        RIGHT_TO_LEFT,
        "\u202eevil\u2066",
        "nul\0 bell\x07 escape\x1b[31m line\nend \ud800",
    ]


def verdict(id, truth, **more):
    return {"id": id, "verdict": truth, **more}


def machine(name, *verdicts, items=3, **more):
    return {"name": name, "items": items, "verdicts": list(verdicts), "perhaps": [], "notInDictionary": [], "underRemovedName": [], **more}


def table(*machines, asked=10, left_out=()):
    return {"advisories": asked, "machines": list(machines), "leftOut": [{"id": id, "reason": why} for id, why in left_out]}


def odd_table(address):
    """Machines, advisories, titles, reasons, links and left-out ids that all have such names, beside two plain
    machines."""
    names = hostile(address)
    told = {"title": "OpenSSL: some identifiers take long.", "score": 6.5}
    plain = [verdict("CVE-1", "TRUE", **told), verdict("CVE-2", "UNKNOWN", title="Vim", score=9.8, hangsOn=["only zeros decide"])]
    odd = [
        verdict(name, "UNKNOWN", title=name, severity=name, published=name, url=name, hangsOn=[name, name], **({"accepted": name} if place % 2 else {}))
        for place, name in enumerate(names)
    ]
    links = [verdict(f"LINK-{place}", "TRUE", url=url) for place, url in enumerate(["javascript:document.title='broken'", f'https://x/"onclick="y', "data:text/html,x"])]
    machines = [machine(name, plain[0], *odd) for name in names]
    return table(machine("web-1", *plain), machine("web-10", plain[0], *links), *machines, asked=50, left_out=[(name, name) for name in names])


class Page(html.parser.HTMLParser):
    """The elements of a page, its rows, and the parts of it that are shown."""

    def __init__(self, text):
        super().__init__()
        self.elements, self.rows, self.texts = [], [], []
        self._open = []
        self.feed(text)
        self.close()

    def handle_starttag(self, tag, attributes):
        self.elements.append((tag, dict(attributes)))
        if tag in ("li", "dt", "dd", "option"):
            self._close_one(tag)
        if tag == "li" and any("data-truth" in one for _, one in self._open):
            self.rows.append({"truth": next(one["data-truth"] for _, one in self._open if "data-truth" in one), "cells": []})
            self.rows[-1]["is_shown"] = not any("hidden" in one for one in [dict(attributes), *(one for _, one in self._open)])
        if tag not in VOID:
            self._open.append((tag, dict(attributes)))

    def _close_one(self, tag):
        if self._open and self._open[-1][0] == tag:
            self._open.pop()

    def handle_endtag(self, tag):
        if tag in VOID:
            return
        while self._open:
            if self._open.pop()[0] == tag:
                return

    def handle_data(self, data):
        self.texts.append(data)
        if data.strip() and any("data-truth" in one for _, one in self._open) and any(tag == "li" for tag, _ in self._open):
            self.rows[-1]["cells"].append(data.strip())

    def shown(self):
        return [row for row in self.rows if row["is_shown"]]
