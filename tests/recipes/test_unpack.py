"""How files are unpacked: pages alone and in archives, files that are cut off, and files that would unpack to too
much."""
import bz2
import gzip
import io
import json
import os
import tarfile
import unittest
import zipfile
from unittest import mock

from recipe_case import RecipeCase

from cpe_recipes import completeness, feeds, unpack
from cpe_recipes.console import Fatal
from cpe_recipes.unpack import LARGE, FeedFault, Limits, Unpacker

PAGES = {f"nvdcpe-2.0-chunks/nvdcpe-2.0-chunk-0000{number}.json": json.dumps({"rows": [number] * 50}).encode() for number in (1, 2, 3)}
SMALL = Limits(most=5000, times=10, free=1000, hint=" (--large lets it)")


def zipped(members, method=zipfile.ZIP_DEFLATED):
    file = io.BytesIO()
    with zipfile.ZipFile(file, "w", method) as archive:
        for name, data in members.items():
            archive.writestr(name, data)
    return file.getvalue()


def tarred(members, how="w"):
    file = io.BytesIO()
    with tarfile.open(fileobj=file, mode=how) as archive:
        for name, data in members.items():
            member = tarfile.TarInfo(name)
            member.size = len(data)
            archive.addfile(member, io.BytesIO(data))
    return file.getvalue()


class Parts(RecipeCase):
    def parts(self, data, limits=unpack.LIMITS):
        self.unpacked = Unpacker(limits)
        return dict(self.unpacked.parts(self.file("it", data)))

    def refused(self, data, limits=unpack.LIMITS):
        with self.assertRaises(FeedFault) as caught:
            self.parts(data, limits)
        return str(caught.exception)

    def test_each_way_in_which_pages_are_packed(self):
        for data in (zipped(PAGES), zipped(PAGES, zipfile.ZIP_STORED), tarred(PAGES), tarred(PAGES, "w:gz")):
            self.assertEqual(self.parts(data), PAGES)
            self.assertEqual(self.unpacked.passed, [])
        page = PAGES["nvdcpe-2.0-chunks/nvdcpe-2.0-chunk-00001.json"]
        self.assertEqual((self.parts(page), self.parts(gzip.compress(page)), self.parts(b"")), ({"": page}, {"": page}, {"": b""}))
        self.assertEqual(self.parts(gzip.compress(page) + gzip.compress(b" ")), {"": page + b" "})

    def test_archives_within_archives(self):
        inner = zipped({"cves/2024/CVE-2024-1.json": b"{}", "cves/delta.json": b"{}"})
        self.assertEqual(self.parts(zipped({"cves.zip": inner, "a.json.gz": gzip.compress(b"[]")})), {"cves.zip/cves/2024/CVE-2024-1.json": b"{}", "a.json.gz": b"[]"})
        self.assertEqual(self.unpacked.passed, ["cves/delta.json"])
        for _ in range(5):
            inner = zipped({"a.zip": inner})
        self.assertEqual(self.refused(inner), "archives are nested in it too deep")

    def test_members_that_are_no_pages_are_passed_over_and_told(self):
        others = {"README.md": b"#", "__MACOSX/._a.json": b"x", "cves/delta.json": b"[]", "cves/deltaLog.json": b"[]"}
        for data in (zipped({**others, "a.json": b"{}"}), tarred({**others, "a.json": b"{}"}, "w:gz")):
            self.assertEqual(self.parts(data), {"a.json": b"{}"})
            self.assertEqual(self.unpacked.passed, list(others))
        for data in (zipped(others), tarred(others), zipped({}), zipped({"a.zip": zipped(others)})):
            self.assertEqual(self.refused(data), "no member of the archive is JSON by its name")
        link = tarfile.TarInfo("b.json")
        link.type, link.linkname = tarfile.SYMTYPE, "/etc/passwd"
        file = io.BytesIO()
        with tarfile.open(fileobj=file, mode="w") as archive:
            archive.addfile(link)
        self.assertEqual(self.refused(file.getvalue()), "no member of the archive is JSON by its name")

    def test_what_is_cut_is_told_wherever_the_cut_is(self):
        rows = {name: os.urandom(700).hex().encode() for name in ("a.json", "b.json")}
        for data in (zipped(rows), tarred(rows), tarred(rows, "w:gz"), gzip.compress(rows["a.json"])):
            # (a tar ends in blocks of zeros, of which the first is enough)
            for length in {*range(20, len(data) - 1, 311), len(data) - 1} - set(range(len(data.rstrip(b"\0")) + 512, len(data))):
                with self.subTest(front=data[:4], length=length):
                    try:
                        found = self.parts(data[:length])
                    except FeedFault:
                        continue
                    # (a text that is no archive any more is no JSON either)
                    self.assertEqual(list(found), [""])
                    with self.assertRaises(FeedFault):
                        list(feeds.values_of(found[""]))

    def test_what_is_packed_otherwise_is_named(self):
        self.assertEqual(self.refused(bz2.compress(b"{}")), "it is packed by bzip2, which isn't read: unpack it first")
        self.assertIn("a.json in it is packed in a way that isn't read", self.refused(zipped({"a.json": b"{}"}, zipfile.ZIP_BZIP2)))
        locked = bytearray(zipped({"a.json": b"{}"}))
        locked[6] |= 1
        locked[locked.index(b"PK\x01\x02") + 8] |= 1
        self.assertIn("can not be unpacked: ", self.refused(bytes(locked)))
        broken = bytearray(zipped({"a.json": b"{}" * 50}, zipfile.ZIP_STORED))
        broken[50] ^= 1
        self.assertIn("can not be unpacked: Bad CRC-32", self.refused(bytes(broken)))

    def test_what_unpacks_to_more_than_it_may_is_refused_while_it_does(self):
        for size in (1001, 18_000_000):
            page = b" " * size
            packed = gzip.compress(page)
            self.assertEqual(len(self.parts(packed, LARGE)[""]), size)
            for data in (packed, zipped({"a.json": page}), tarred({"a.json": page}, "w:gz"), zipped({"a.zip": zipped({"a.json": page})})):
                with self.subTest(size=size, front=data[:4]):
                    read: list[int] = []
                    most = SMALL if len(packed) < 100 else unpack.HINTING_LIMITS
                    with mock.patch.object(unpack._ByteCounter, "take", self.noting(read)):
                        self.assertRegex(self.refused(data, most), r"unpacks to more than \d+ times its size, [\d,]+ bytes \(--large lets it\)")
                    self.assertLess(sum(read), max(most.free, most.times * len(data)) + 4 * unpack._CHUNK)

    def noting(self, read):
        whole_take = unpack._ByteCounter.take

        def take(counted, count):
            read.append(count)
            whole_take(counted, count)

        return take

    def test_a_page_has_its_most_however_well_it_is_packed(self):
        page = os.urandom(3000).hex().encode()
        for data in (gzip.compress(page), zipped({"a.json": page}), tarred({"a.json": page}), tarred({"a.json": page}, "w:gz")):
            self.assertEqual(self.refused(data, SMALL), "it unpacks to more than 5,000 bytes (--large lets it)")
            self.assertEqual(list(self.parts(data, LARGE).values()), [page])
        # (an archive of many pages may unpack to more than one page may)
        many = {f"{number}.json": os.urandom(2000).hex().encode() for number in range(5)}
        for data in (zipped(many), tarred(many, "w:gz"), tarred(many)):
            self.assertEqual(self.parts(data, SMALL), many)

    def test_a_small_page_may_say_the_same_again_and_again(self):
        page = b'{"rows":[' + b"1," * 1_000_000 + b"1]}"
        packed = gzip.compress(page)
        self.assertGreater(len(page), 200 * len(packed))
        self.assertEqual(self.parts(packed), {"": page})

    def test_members_that_share_their_bytes_are_counted_together(self):
        file = bytearray(zipped({"a.json": b" " * 900}))
        start = file.index(b"PK\x01\x02")
        entry = file[start : file.index(b"PK\x05\x06")]
        end = bytearray(file[file.index(b"PK\x05\x06") :])
        end[8:12] = (60000).to_bytes(2, "little") * 2
        end[12:16] = (60000 * len(entry)).to_bytes(4, "little")
        bomb = bytes(file[:start] + entry * 60000 + end)
        with self.assertRaises(FeedFault):
            self.parts(bomb, Limits(most=5000, times=1, free=1000))


class Pages(RecipeCase):
    def read(self, data, name="it.zip", **how):
        return [(page.name, page.records) for page in completeness.pages([self.file(name, data)], self.messages, ("rows",), **how)]

    def test_pages_are_called_by_archive_and_member(self):
        found = self.read(zipped({**PAGES, "README": b""}))
        self.assertEqual([name for name, _ in found], [f"it.zip/{name}" for name in PAGES])
        self.assertEqual(self.messages.told, ["remark it.zip: 1 member is no page by the name, such as README"])

    def test_a_bad_member_is_left_out_by_its_name_or_fatal(self):
        bad = zipped({"a.json": b'{"rows":[1]}', "b.json": b"<html>", "c.json": b'{"rows":[2]}'})
        with self.assertRaises(Fatal) as caught:
            self.read(bad, strict=True)
        self.assertTrue(str(caught.exception).startswith("it.zip/b.json: no JSON: "), caught.exception)
        self.assertEqual([rows for _, rows in self.read(bad)], [[1], [2]])
        self.assertTrue(self.messages.told[0].startswith("left out it.zip/b.json: no JSON: "))

    def test_large_lets_a_page_pass(self):
        page = gzip.compress(b'{"rows":[1]}' + b" " * 20_000_000)
        with self.assertRaisesRegex(Fatal, "it unpacks to more than 200 times its size"):
            self.read(page)
        self.assertEqual(self.read(page, reading=completeness.ReadingPolicy(limits=LARGE)), [("it.zip", [1])])

    def test_a_pipe_is_read(self):
        path = str(self.folder / "pipe")
        os.mkfifo(path)
        if os.fork() == 0:
            with open(path, "wb") as pipe:
                pipe.write(zipped(PAGES))
            os._exit(0)
        found = list(completeness.pages([path], self.messages, ("rows",)))
        os.wait()
        self.assertEqual(len(found), 3)


if __name__ == "__main__":
    unittest.main()
