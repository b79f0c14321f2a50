"""Fleets: the questions to the workers, the messages about machines, and what is left if a worker ends early."""
import os
import signal
import subprocess
import time
import unittest

from recipe_case import CPE, RECIPES, RecipeCase, fs, needs_cpe, obey_signals

from cpe_recipes import fleet, names
from cpe_recipes.arguments import read_arguments
from cpe_recipes.console import Fatal
from cpe_recipes.program import Program
from cpe_recipes.session import MachineQuestion, Session

OPENSSL = fs("openssl", "openssl", "1.1.1t")
RANGE = {
    "op": "AND",
    "of": [{"fact": fs("openssl", "openssl")}, {"check": {"system": "NVD", "href": "cpeMatch", "id": 'key "1"'}}],
}
STATEMENTS = [
    {"do": "statement", "id": "ranged", "test": {"op": "OR", "of": [RANGE]}},
    {"do": "statement", "id": "named", "test": {"op": "OR", "of": [{"fact": OPENSSL}]}},
]
RESULT = {"do": "check", "system": "NVD", "href": "cpeMatch", "id": 'key "1"', "result": "FALSE"}


@needs_cpe
class Sessions(RecipeCase):
    def session(self, records=None):
        path = self.file("records", records or STATEMENTS)
        self.fleet_data = fleet.read_records(Program(CPE), path, self.messages).fleet_data
        session = Session(CPE, self.fleet_data)
        self.addCleanup(session.end)
        return session

    def test_what_was_decided_holds_for_its_machine_alone(self):
        session = self.session()
        key = 'key "1"'
        self.assertEqual(session.ask(MachineQuestion("a", [OPENSSL], [(key, "TRUE")])).lines, ["a ranged TRUE", "a named TRUE"])
        self.assertEqual(session.ask(MachineQuestion("b", [OPENSSL])).lines, ["b ranged UNKNOWN", "b named TRUE"])
        self.assertEqual(
            session.ask(MachineQuestion("c", ["cpe:/a:openssl:openssl:3"], [(key, "FALSE")])).lines, ["c ranged FALSE", "c named FALSE"]
        )

    def test_an_item_that_is_known_in_part_leaves_open_what_hangs_on_it(self):
        part = "cpe:/a:openssl:openssl:1.1.1%02"
        session = self.session()
        self.assertEqual(session.ask(MachineQuestion("a", [part], [('key "1"', "FALSE")])).lines, ["a ranged FALSE", "a named UNKNOWN"])
        self.assertEqual(session.ask(MachineQuestion("b", [part, OPENSSL])).lines, ["b ranged UNKNOWN", "b named TRUE"])

    def test_what_is_no_item_is_left_out_of_its_machine(self):
        session = self.session()
        told = session.ask(MachineQuestion("a", ["cpe:/a:x%zz", "CPE:/A:OpenSSL:OpenSSL:1.1.1t", OPENSSL, 'cpe:/"\\']))
        self.assertEqual(told.left_out, [("cpe:/a:x%zz", "name name 9"), ('cpe:/"\\', "name name 5")])
        self.assertEqual(told.lines, ["a ranged UNKNOWN", "a named TRUE"])

    def test_a_machine_without_items_has_no_verdicts(self):
        session = self.session()
        for items in ([], ["cpe:/a:x%zz", "cpe:/a:%02"]):
            told = session.ask(MachineQuestion("a", items))
            self.assertEqual((told.lines, told.has_items, len(told.left_out)), (["a no items"], False, len(items)))
        self.assertEqual(session.ask(MachineQuestion("b", [OPENSSL])).lines, ["b ranged UNKNOWN", "b named TRUE"])

    def test_a_result_that_is_no_result_is_told(self):
        told = self.session().ask(MachineQuestion("a", [OPENSSL], [("key", "PERHAPS")]))
        self.assertEqual(told.left_out, [("check key", "member result")])
        self.assertEqual(told.lines, ["a ranged UNKNOWN", "a named TRUE"])

    def test_a_verdict_that_hangs_on_another_name_is_unknown(self):
        session = self.session(
            [*STATEMENTS, {"do": "statement", "id": "not", "test": {"op": "OR", "negate": True, "of": [{"fact": OPENSSL}]}}]
        )
        maybe = names.blank(OPENSSL, (names.ATTRIBUTES.index("other"),))
        asked = MachineQuestion("a", ["cpe:/a:x:y"], [('key "1"', "FALSE")], [maybe])
        self.assertEqual(session.ask(asked).lines, ["a ranged FALSE", "a named UNKNOWN", "a not UNKNOWN"])
        asked = MachineQuestion("b", ["cpe:/a:x:y"], [(f"not {OPENSSL}", "FALSE")])
        self.assertEqual(session.ask(asked).lines, ["b ranged FALSE", "b named FALSE", "b not TRUE"])

    def asked_of(self, records, machines, *words):
        """The lines of a fleet over these machines, by a session."""
        program, path = Program(CPE), self.file("records", records)
        arguments = read_arguments([path, self.file("machines", machines), *words], fleet.OPTIONS, fleet.USAGE)
        asked = fleet.read_fleet(program, arguments, self.messages)
        session = Session(CPE, asked.fleet_data)
        self.addCleanup(session.end)
        return [line for machine in asked.machines for line in session.ask(machine).lines if "ranged" not in line]

    def test_an_item_under_a_removed_name_is_found_as_it_stands(self):
        gone = fs("openssl", "gone", "1.0")
        entries = [{"do": "entry", "name": gone}, {"do": "deprecate", "name": gone, "kind": "NAME_REMOVAL", "date": "2024-01-02"}]
        fact = [{"fact": fs("openssl", "gone")}]
        asks = [{"do": "statement", "id": "gone", "mode": "follow", "test": {"op": "OR", "of": fact}}]
        asks.append({"do": "statement", "id": "not", "mode": "follow", "test": {"op": "OR", "negate": True, "of": fact}})
        lines = self.asked_of([*entries, *asks, *STATEMENTS], f"a {gone} {OPENSSL}\nb {OPENSSL}\nc {gone}\n")
        self.assertEqual(self.messages.told, [f"remark under a removed name {machine} {gone}" for machine in "ac"])
        wanted = {"a": ["TRUE", "UNKNOWN", "TRUE"], "b": ["FALSE", "TRUE", "TRUE"], "c": ["TRUE", "UNKNOWN", "FALSE"]}
        self.assertEqual(
            lines, [f"{name} {id} {truth}" for name, of in wanted.items() for id, truth in zip(("gone", "not", "named"), of)]
        )

    def test_an_item_that_says_less_is_unknown_unless_it_is_strict(self):
        asks = [{"do": "statement", "id": "update", "test": {"op": "OR", "of": [{"fact": f"cpe:/a:openssl:openssl:1.1.1t:rc1"}]}}]
        self.assertEqual(self.asked_of(asks, f"a {OPENSSL}\n"), ["a update UNKNOWN"])
        self.assertEqual(self.asked_of(asks, f"a {OPENSSL}\n", "--strict"), ["a update FALSE"])

    def test_a_run_that_dies_is_noticed(self):
        session = self.session()
        session._run.kill()
        with self.assertRaises((OSError, EOFError)):
            session.ask(MachineQuestion("a", [OPENSSL]))

    def test_answers_to_the_records_are_none_to_machines(self):
        session = self.session([{"do": "verdict", "id": "named"}, *STATEMENTS, {"do": "lookup", "name": OPENSSL}, {"do": "none"}])
        self.assertEqual((self.fleet_data.answers, self.fleet_data.statements), (3, ["ranged", "named"]))
        self.assertEqual(self.messages.told, ["left out records line 5: member do"])
        self.assertEqual(session.ask(MachineQuestion("b", [OPENSSL])).lines, ["b ranged UNKNOWN", "b named TRUE"])


@needs_cpe
class Records(RecipeCase):
    def read(self, data):
        return fleet.read_records(Program(CPE), self.file("records", data), self.messages)

    def fatal(self, data):
        with self.assertRaises(Fatal) as caught:
            self.read(data)
        return str(caught.exception)

    def test_what_is_no_set_of_records(self):
        self.assertEqual(self.fatal([]), "records: no statements in it")
        self.assertEqual(
            self.fatal([*STATEMENTS, {"do": "item", "name": OPENSSL}]),
            "records line 3: an item is among the records; items belong to machines",
        )

    def test_results_among_the_records(self):
        drop = {key: text for key, text in RESULT.items() if key != "result"} | {"do": "drop-check"}
        self.assertEqual(self.read([*STATEMENTS, RESULT]).results, {'key "1"'})
        self.assertEqual(self.read([*STATEMENTS, RESULT, drop]).results, set())

    def test_lines_as_the_workers_read_them(self):
        lines = (
            b'{"do":"entry","name":"cpe:/a:v:p","title":"\\\xff"}\r\n\n'
            + b'{"do":"statement","id":"s","test":{"op":"OR","of":[{"fact":"cpe:/a"}]}}'
        )
        known = self.read(lines).fleet_data
        self.assertEqual(known.lines.count(b"\n"), 3)
        session = Session(CPE, known)
        self.addCleanup(session.end)
        self.assertEqual(session.ask(MachineQuestion("m", ["cpe:/a:v:p"])).lines, ["m s TRUE"])

    def test_decided_lines(self):
        path = self.file("decided", "a\tkey 1\tTRUE\r\nb\tkey 1\tFALSE\na\tkey 2\tFALSE\n")
        self.assertEqual(fleet.read_results(path), {"a": [("key 1", "TRUE"), ("key 2", "FALSE")], "b": [("key 1", "FALSE")]})
        for bad in ("a\tkey\n", "a\tkey\tUNKNOWN\n", "\n", "a key TRUE\n"):
            with self.assertRaises(Fatal):
                fleet.read_results(self.file("decided", bad))


@needs_cpe
class Parallel(RecipeCase):
    def setUp(self):
        super().setUp()
        if subprocess.run(["sh", "-c", "command -v parallel"], capture_output=True).returncode:
            self.skipTest("there is no parallel")
        self.records = self.file("records", STATEMENTS)

    def fleet(self, machines, *words, program=CPE, prefix=""):
        command = f'{prefix} exec sh "{RECIPES}/fleet/parallel.sh" "$@"'
        environment = {**os.environ, "CPE": program, "WORKERS": "2", "TMPDIR": str(self.folder)}
        words = [self.records, self.file("machines", machines), *words]
        run = subprocess.run(["sh", "-c", command, "sh", *words], capture_output=True, text=True, env=environment)
        return run.returncode, run.stdout.splitlines(), run.stderr.splitlines()

    def test_machines_as_people_write_them(self):
        machines = f"\ufeffa\t {OPENSSL}  cpe:/a:x\r\n\r\nb\r\nc cpe:/a:openssl:openssl:3\r\n"
        decided = self.file("decided", 'a\tkey "1"\tTRUE\nc\tkey "1"\tFALSE\nd\tkey "1"\tTRUE\n')
        status, lines, said = self.fleet(machines, "--decided", decided)
        self.assertEqual(lines, ["a ranged TRUE", "a named TRUE", "b no items", "c ranged FALSE", "c named FALSE", "machines 3"])
        self.assertEqual((status, said), (1, ["remark d has decided ranges, and is no machine here", "left out b: no items"]))

    def test_ranges_are_decided(self):
        old = fs("ossl", "openssl", "1.1.1t")
        entries = [{"do": "entry", "name": old}, {"do": "entry", "name": OPENSSL}]
        entries.append({"do": "deprecate", "name": old, "kind": "NAME_CORRECTION", "successors": [OPENSSL], "date": "2024-01-02"})
        follow = [{**one, "mode": "follow"} for one in STATEMENTS]
        name = fs("openssl", "openssl")
        ranges = self.file(
            "ranges", [{"do": "advisory", "id": 'key "1"', "name": name, "start": "1.1.1", "end": "1.1.1u", "end-excluded": True}]
        )
        unlisted = fs("ossl", "openssl", "1.1.1s")
        gone = fs("openssl", "openssl", "1.1.1q")
        removed = [{"do": "entry", "name": gone}, {"do": "deprecate", "name": gone, "kind": "NAME_REMOVAL", "date": "2024-01-02"}]
        self.file("records", [*entries, *removed, *follow])
        machines = f"a {old}\nb {fs('openssl', 'openssl', '1.1.1u')}\nc {fs('openssl', 'openssl')}\nd {unlisted}\ne cpe:/a:x\nf {gone}\n"
        status, lines, said = self.fleet(machines, "--ranges", ranges)
        self.assertEqual(
            lines,
            [
                "a ranged TRUE",
                "a named TRUE",
                "b ranged FALSE",
                "b named FALSE",
                "c ranged UNKNOWN",
                "c named UNKNOWN",
                "d ranged UNKNOWN",
                "d named FALSE",
                "e ranged FALSE",
                "e named FALSE",
                "f ranged TRUE",
                "f named FALSE",
                "machines 6",
            ],
        )
        self.assertEqual(
            said,
            [
                f"left out c: {name} in {name} from 1.1.1, before 1.1.1u: its version isn't known",
                f"remark d: {unlisted} is not in the dictionary, and may be {fs('openssl', 'openssl', '1.1.1s')}",
                f"remark not in the dictionary d {unlisted} now called openssl:openssl",
                f"remark under a removed name f {gone}",
            ],
        )
        self.assertEqual(status, 1)

    def test_a_result_of_the_records_stays(self):
        self.file("records", [*STATEMENTS, RESULT])
        decided = self.file("decided", 'a\tkey "1"\tTRUE\n')
        machines = f"a {OPENSSL}\nb {OPENSSL}\n"
        self.assertEqual(
            self.fleet(machines, "--decided", decided),
            (0, ["a ranged FALSE", "a named TRUE", "b ranged FALSE", "b named TRUE", "machines 2"], []),
        )

    def test_machines_whose_worker_never_ends_are_missing(self):
        bad = self.folder / "bad"
        bad.write_text(f'#!/bin/sh\n[ -z "${{PARALLEL_SEQ-}}" ] || exit 1\nexec "{CPE}" "$@"\n')
        bad.chmod(0o755)
        status, lines, said = self.fleet("a cpe:/a:no:good\nb cpe:/a:no:good\n", program=str(bad))
        self.assertEqual((status, lines), (5, []))
        self.assertIn("left out a to b: 2 machines, since their worker did not end", said)

    def test_no_room_is_said_and_nothing_is_written(self):
        for prefix in ("ulimit -f 0;", "exec > /dev/full;"):
            status, lines, said = self.fleet(f"a {OPENSSL}\n", prefix=prefix)
            self.assertEqual((status, lines, len(said)), (2, [], 1), said)
            self.assertRegex(said[0], "^parallel.sh: .*(could not be written|no room for)")

    def test_words_that_are_none(self):
        for words in (["--ranges"], ["third"], ["--none", "x"]):
            status, lines, said = self.fleet("a\n", *words)
            self.assertEqual((status, lines), (2, []), said)

    def test_a_signal_ends_the_workers_and_leaves_no_files(self):
        self.file("machines", f"a {OPENSSL}\n")
        slow = self.folder / "slow"
        slow.write_text(
            f'#!/bin/sh\n[ -z "${{PARALLEL_SEQ-}}" ] || {{ echo $$ > "{self.folder}/pid"; exec sleep 60; }}\nexec "{CPE}" "$@"\n'
        )
        slow.chmod(0o755)
        environment = {**os.environ, "CPE": str(slow), "TMPDIR": str(self.folder)}
        for number in (signal.SIGTERM, signal.SIGINT):
            (self.folder / "pid").unlink(missing_ok=True)
            words = ["sh", str(RECIPES / "fleet/parallel.sh"), self.records, str(self.folder / "machines")]
            pipes = {"stdout": subprocess.PIPE, "stderr": subprocess.DEVNULL}
            run = subprocess.Popen(words, env=environment, **pipes, process_group=0, preexec_fn=obey_signals)
            self.wait_for(lambda: (self.folder / "pid").exists() and (self.folder / "pid").read_text().strip())
            worker = int((self.folder / "pid").read_text())
            run.send_signal(number)
            self.assertEqual((run.wait(20), run.stdout.read()), (130, b""))
            run.stdout.close()
            self.assertEqual([path.name for path in self.folder.iterdir() if path.name.startswith(("cpe-recipe", "par"))], [])
            self.wait_for(lambda: not os.path.exists(f"/proc/{worker}"))

    def wait_for(self, holds):
        for _ in range(200):
            if holds():
                return
            time.sleep(0.1)
        self.fail("it did not come")


if __name__ == "__main__":
    unittest.main()
