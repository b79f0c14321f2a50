"""Random feeds in NVD's form. Their few names are shared, and some of their records are odd. They change from day to
day. And machines, some with odd items."""
import datetime
import json
import random

VENDORS, PRODUCTS, VERSIONS = ["v", "w", "x"], ["p", "q", "r", "s", "t"], ["1.0", "1.1", "2.0", "2.1", "3.0b"]
ODD_NAMES = ["cpe:2.3:a:bad", "cpe:2.3:a:*:q:1.0:*:*:*:*:*:*:*", "cpe:2.3:a:v*:p:1.0:*:*:*:*:*:*:*", "CPE:2.3:A:V:P:1.0:*:*:*:*:*:*:*",
             "cpe:2.3:a:v:-:*:*:*:*:*:*:*:*", "cpe:/a:w:r:1.1"]
MEMBERS = {"products": "NVD_CPE", "vulnerabilities": "NVD_CVE", "matchStrings": "NVD_CPEMatchString"}


class Feeds:
    """The records of today. Each day some of them change, are added or are removed."""

    def __init__(self, seed, products=40, advisories=60):
        self.draw, self.day = random.Random(seed), 0
        self.products, self.advisories, self.matches, self.records = {}, {}, {}, {}
        self.pages = 0
        for number in range(products):
            self._put_product(number)
        for number in range(advisories):
            self._put_advisory(number)
        for number in range(advisories // 10):
            self._put_record(number)

    def is_one_of(self, number):
        return self.draw.randrange(number) == 0

    def now(self):
        # (some records have the same time, so that it isn't known which is later)
        time = datetime.datetime(2024, 1, 1, self.draw.randrange(2)) + datetime.timedelta(self.day)
        return time.isoformat(timespec="milliseconds")

    def name(self, version=None, part="a"):
        vendor, product = self.draw.choice(VENDORS), self.draw.choice(PRODUCTS)
        return f"cpe:2.3:{part}:{vendor}:{product}:{version or self.draw.choice(VERSIONS)}:*:*:*:*:*:*:*"

    def device(self, version=None):
        """A name of an operating system, of firmware or of hardware."""
        return self.name(version or self.draw.choice([*VERSIONS[:2], "-"]), self.draw.choice("oh"))

    def _put_product(self, number):
        name = self.name() if number % 4 else f"cpe:2.3:o:v:s:{self.draw.choice(VERSIONS)}:*:*:*:*:*:*:*"
        if number % 8 == 1:
            name = self.device()
        product = {"cpeName": name, "cpeNameId": f"N{number}", "lastModified": self.now(), "created": self.now()}
        product["titles"] = [{"title": f"Title {number}", "lang": "en"}]
        if self.is_one_of(4):
            product["deprecated"] = True
            product["deprecatedBy"] = [{"cpeName": self.name()} for _ in range(self.draw.choice([0, 1, 1, 1, 2]))]
        elif self.is_one_of(8):
            product["deprecates"] = [{"cpeName": self.name()}]
        if self.is_one_of(20):
            product["cpeName"] = self.draw.choice([7, "cpe:2.3:a:bad", name.upper(), None])
        self.products[number] = {"cpe": product}

    def match(self, is_vulnerable=True, part="a"):
        key = f"K{self.draw.randrange(10_000)}"
        if self.is_one_of(3):
            name = self.name(part=part) if not self.is_one_of(10) else self.draw.choice(ODD_NAMES)
            return {"vulnerable": is_vulnerable, "criteria": name, "matchCriteriaId": key}
        first, last = sorted(self.draw.sample(VERSIONS[:4], 2))
        bounds = {"versionStartIncluding": first} if self.is_one_of(2) else {}
        bounds[self.draw.choice(["versionEndIncluding", "versionEndExcluding"])] = last
        if self.is_one_of(30):
            bounds |= {"versionEndIncluding": last, "versionEndExcluding": last}
        name = self.name("*", part)
        if self.is_one_of(3):
            names = [self.name() for _ in range(2)] + [name.replace(":*:", f":{first}:", 1)]
            string = {"matchCriteriaId": key, "criteria": name, "lastModified": self.now(), "matches": [{"cpeName": one} for one in names]}
            if self.is_one_of(4):
                # (lists are found by the id of their match, whatever its name is)
                string["criteria"] = self.draw.choice([None, 5, names[0], self.name("*"), self.draw.choice(ODD_NAMES)])
            self.matches[key] = {"matchString": string}
        return {"vulnerable": is_vulnerable, "criteria": name, **bounds, "matchCriteriaId": key}

    def configuration(self):
        if self.is_one_of(3):
            return self.configuration_of_devices()
        node = {"operator": "OR", "negate": False, "cpeMatch": [self.match() for _ in range(self.draw.randint(1, 3))]}
        nodes = [node]
        if self.is_one_of(4):
            system = {"vulnerable": False, "criteria": f"cpe:2.3:o:v:s:{self.draw.choice(['*', '1.0'])}:*:*:*:*:*:*:*", "matchCriteriaId": "S"}
            nodes.append({"operator": "OR", "negate": self.is_one_of(4), "cpeMatch": [system if self.is_one_of(2) else self.match(False)]})
        if self.is_one_of(30):
            node["operator"] = "XOR"
        if self.is_one_of(30):
            node["cpeMatch"][0]["vulnerable"] = False
        return {"nodes": nodes, "operator": self.draw.choice(["AND", "OR"]), "negate": self.is_one_of(20)}

    def configuration_of_devices(self):
        """A configuration with a vulnerable operating system, firmware or hardware, mostly with something else beside
        it."""
        def node(is_vulnerable, parts):
            matches = [self.match(is_vulnerable and not self.is_one_of(8), self.draw.choice(parts)) for _ in range(self.draw.randint(1, 2))]
            return {"operator": self.draw.choice(["OR", "OR", "AND"]), "negate": self.is_one_of(20), "cpeMatch": matches}

        nodes = [node(True, self.draw.choice(["o", "h", "oh", "oa"]))]
        nodes += [node(False, self.draw.choice(["h", "o", "a", "oha"])) for _ in range(self.draw.choice([0, 1, 1, 1, 2]))]
        return {"nodes": nodes, "operator": self.draw.choice(["AND", "AND", "AND", "OR"]), "negate": self.is_one_of(20)}

    def _put_advisory(self, number):
        status = self.draw.choice(["Analyzed"] * 6 + ["Modified", "Rejected", "Awaiting Analysis", "Undergoing Analysis"])
        cve = {"id": f"CVE-2024-{10_000 + number}", "lastModified": self.now(), "vulnStatus": status}
        cve["descriptions"] = [{"lang": "en", "value": f"Advisory {number} of day {self.day}."}]
        if self.is_one_of(20):
            cve["descriptions"][0]["value"] += " \ud800 \x07 \u2028 ü"
        score = 11 if self.is_one_of(20) else self.draw.randint(10, 100) / 10
        cve["metrics"] = {"cvssMetricV31": [{"type": "Primary", "cvssData": {"baseScore": score, "baseSeverity": "HIGH"}}]}
        if status in ("Analyzed", "Modified"):
            cve["configurations"] = [self.configuration() for _ in range(self.draw.choice([1, 1, 1, 2]))]
        if self.is_one_of(40):
            cve["id"] = self.draw.choice([7, None])
        self.advisories[number] = {"cve": cve}

    def _put_record(self, number):
        id = f"CVE-2024-{10_000 + self.draw.randrange(80)}"
        metadata = {"cveId": id, "state": self.draw.choice(["PUBLISHED"] * 4 + ["REJECTED"]), "dateUpdated": self.now() + "Z"}
        affected = {"cpes": [self.name("*")], "defaultStatus": "unaffected", "versions": [{"version": "1.0", "lessThan": "2.0", "status": "affected", "versionType": self.draw.choice(["semver", "custom"])}]}
        cna = {"affected": [affected if not self.is_one_of(4) else {"product": "p"}], "descriptions": [{"lang": "en", "value": "By its maker."}]}
        self.records[number] = {"dataType": "CVE_RECORD", "dataVersion": "5.1", "cveMetadata": metadata, "containers": {"cna": cna}}

    def whole(self, folder, size=25):
        """Writes pages of all records, and returns their paths, by kind."""
        kinds = {"products": self.products, "vulnerabilities": self.advisories, "matchStrings": self.matches}
        found = {kind: self._written(folder, kind, list(records.values()), size) for kind, records in kinds.items()}
        self.pages += 1
        path = folder / f"page-{self.pages}.json"
        path.write_text(json.dumps(list(self.records.values())))
        found["vulnerabilities"].append(str(path))
        return found

    def changed(self, folder):
        """A day later: pages of the changed records."""
        self.day += 1
        changed = {"products": {}, "vulnerabilities": {}, "matchStrings": {}}
        before = set(self.matches)
        for _ in range(self.draw.randint(0, 6)):
            number = self.draw.randrange(len(self.advisories) + 3)
            self._put_advisory(number)
            changed["vulnerabilities"][number] = self.advisories[number]
        for _ in range(self.draw.randint(0, 3)):
            number = self.draw.randrange(len(self.products) + 2)
            self._put_product(number)
            changed["products"][number] = self.products[number]
        changed["matchStrings"] = {key: self.matches[key] for key in self.matches.keys() - before}
        return {kind: self._written(folder, kind, list(of.values()), 25) for kind, of in changed.items() if of}

    def _written(self, folder, kind, records, size):
        paths = []
        for first in range(0, len(records), size):
            part = records[first : first + size]
            self.pages += 1
            path = folder / f"page-{self.pages}.json"
            counts = {"resultsPerPage": len(part), "startIndex": first, "totalResults": len(records)}
            path.write_text(json.dumps({**counts, "format": MEMBERS[kind], "version": "2.0", kind: part}))
            paths.append(str(path))
        return paths

    def machines(self, path, count=5, is_odd=True):
        """A file of machines. The first machines have items whose vendor or product is known in part."""
        lines = []
        for number in range(count):
            items = [self.name() for _ in range(self.draw.randint(1, 4))]
            if self.is_one_of(3):
                items.append(f"cpe:2.3:o:v:s:{self.draw.choice(VERSIONS)}:*:*:*:*:*:*:*")
            if self.is_one_of(3):
                items.append(self.device())
            if is_odd and self.is_one_of(3):
                items.append(self.draw.choice(["cpe:2.3:a:v*:q:1.0:*:*:*:*:*:*:*", "cpe:2.3:a:w:?s:1.*:*:*:*:*:*:*:*", "cpe:2.3:a:v:p:*:*:*:*:*:*:*:*", "cpe:2.3:a:bad"]))
            if self.is_one_of(3):
                items.append({"id": "it", "names": [], "purl": f"pkg:generic/{self.draw.choice(PRODUCTS)}@{self.draw.choice(VERSIONS)}"})
            lines.append(json.dumps({"machine": f"m{number}", "components": items}))
        path.write_text("".join(f"{line}\n" for line in lines))
        return str(path)
