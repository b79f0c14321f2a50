"""Reads snapshots by itself, and compares that with `cpe load`, on bytes that are nearly a snapshot.

    python3 tests/snapshots.py PROGRAM [--all]

A small snapshot of each kind of row is cut at each byte, made longer, and changed at each byte: to four other values,
or with --all to each of the 255 others, which takes minutes. With --all there is also an input that is longer than any
snapshot: it has to be refused, and read to its end. The recipe that reads snapshots says what `load` has to answer, by
the form of the bytes alone. Rows that it reads are written as records, and `save` has to make the same bytes from
these. The status is 0 if nothing failed.
"""

import argparse
import json
import pathlib
import subprocess
import sys

sys.dont_write_bytecode = True

RECIPES = pathlib.Path(__file__).resolve().parents[1] / 'recipes'
sys.path.insert(0, str(RECIPES))
from cpe_recipes.console import Messages  # noqa: E402
from cpe_recipes.from_snapshot import NotSnapshot, read, records  # noqa: E402


class Heard(Messages):
    """What a recipe leaves out, kept to itself."""

    def leave_out(self, id, reason):
        self.left += 1


def run(program, word, data):
    ended = subprocess.run([program, word], input=data, capture_output=True, timeout=100, check=False)
    return ended.returncode, ended.stdout


def saved(program, lines):
    text = ''.join(json.dumps(line, ensure_ascii=False) + '\n' for line in lines)
    return run(program, 'save', text.encode('utf-8'))


def head_of(rows):
    deprecated = sum(row['kind'] is not None for row in rows.entries)
    counts = [('entries', len(rows.entries)), ('deprecated', deprecated), ('items', len(rows.items)),
              ('statements', len(rows.statements)), ('checks', len(rows.results))]
    return ''.join(f'{word} {count}\n' for word, count in counts) + f'verdicts {len(rows.statements)}\n'


def is_right(program, data):
    """Whether `load` says of these bytes what it has to."""
    status, out = run(program, 'load', data)
    refused = status == 1 and out == b'refused snapshot\n'
    try:
        rows = read(data)
    except NotSnapshot:
        return refused
    heard = Heard()
    lines = list(records(rows, heard))
    if heard.left:
        # these rows can't be written as records, so at least their counts are compared
        return refused or (status == 0 and out.decode('utf-8').startswith(head_of(rows)))
    of_records, bytes_of_records = saved(program, lines)
    if of_records == 0 and bytes_of_records == data:
        text = ''.join(json.dumps(line, ensure_ascii=False) + '\n' for line in lines).encode('utf-8')
        table = run(program, 'evaluate', text)[1].decode('utf-8')
        head = head_of(rows)
        return status == 0 and out.decode('utf-8') == head[:head.rindex('verdicts')] + table
    return refused


# A snapshot has no more bytes.
MOST_BYTES = 536_870_936

SMALL = [
    [],
    [{'do': 'item', 'name': 'cpe:/a'}],
    [{'do': 'entry', 'name': 'cpe:/a:v:q:1', 'provenance': {'submitter': 's', 'changes': [{'kind': 'ORIGINAL_RECORD', 'date': '2024-02-29'}]}},
     {'do': 'entry', 'name': 'cpe:/a:v:p:1', 'title': 'ü'},
     {'do': 'deprecate', 'name': 'cpe:/a:v:p:1', 'kind': 'NAME_CORRECTION', 'successors': ['cpe:/a:v:q:1'], 'date': '2024-03-01'},
     {'do': 'item', 'name': 'cpe:/a:v:p:1'},
     {'do': 'statement', 'id': 's', 'mode': 'follow', 'test': {'op': 'OR', 'of': [
         {'fact': 'cpe:/a:v:q'}, {'op': 'AND', 'negate': True, 'of': [{'check': {'system': 'x', 'href': 'h', 'id': 'i'}}]}]}},
     {'do': 'check', 'system': 'x', 'href': 'h', 'id': 'i', 'result': 'ERROR'}],
]


def variants(data, is_all):
    """What is nearly these bytes: each prefix, a byte more, another version, and each byte changed."""
    yield from (data[:length] for length in range(len(data)))
    yield from (data + bytes([more]) for more in (0, 1, 10, 255))
    yield b'CPESNAP2' + data[8:]
    for at, value in enumerate(data):
        others = range(256) if is_all else (0, 255, (value + 1) % 256, value ^ 32)
        yield from (data[:at] + bytes([other]) + data[at + 1:] for other in dict.fromkeys(others) if other != value)


def refuses_too_long(program):
    """Whether an input of more bytes than a snapshot has at most is refused, and read to its end."""
    more = MOST_BYTES + 1
    with subprocess.Popen([program, 'load'], stdin=subprocess.PIPE, stdout=subprocess.PIPE) as child:
        try:
            child.stdin.write(b'CPESNAP1')
            more -= 8
            while more > 0:
                more -= child.stdin.write(bytes(min(more, 1 << 20)))
            child.stdin.close()
        except BrokenPipeError:
            return False
        out = child.stdout.read()
    return child.returncode == 1 and out == b'refused snapshot\n'


def main():
    parser = argparse.ArgumentParser(description=__doc__, formatter_class=argparse.RawDescriptionHelpFormatter)
    parser.add_argument('program')
    parser.add_argument('--all', action='store_true')
    given = parser.parse_args()
    tried = failed = 0
    for lines in SMALL:
        status, data = saved(given.program, lines)
        if status != 0:
            print(f'FAILED: save of {len(lines)} records')
            return 1
        for other in [data, *variants(data, given.all)]:
            tried += 1
            if not is_right(given.program, other):
                failed += 1
                print(f'FAILED: load of {other.hex()}')
    if given.all:
        tried += 1
        if not refuses_too_long(given.program):
            failed += 1
            print(f'FAILED: load of {MOST_BYTES + 1} bytes')
    print(f'{tried} inputs of load tried, {failed} failed')
    return 1 if failed else 0


if __name__ == '__main__':
    sys.exit(main())
