"""Makes and tests certificates by itself, and compares them with those of `cpe explain` and `cpe check` on the same
records.

    python3 tests/proofs.py PROGRAM [--changes N]

It keeps some rows as records state them, by a second implementation of NIST IR 7697 and 7698 for simple names: each
attribute is ANY or a plain text, and those of an item may have patterns too. `explain` has to write the certificates
that are made here, and `check` has to accept each of them. Then one token of a good certificate is changed, N times
(1,000). If `check` says `holds`, the changed certificate has to be good by the test in this file, and if it is good,
`check` has to say so. The status is 0 if nothing failed.
"""

import argparse
import json
import random
import re
import subprocess
import sys

TRUTHS = ('TRUE', 'FALSE', 'ERROR', 'UNKNOWN')
AND = ('FALSE', 'ERROR', 'UNKNOWN', 'TRUE')
OR = ('TRUE', 'ERROR', 'UNKNOWN', 'FALSE')
NOT = {'TRUE': 'FALSE', 'FALSE': 'TRUE', 'ERROR': 'ERROR', 'UNKNOWN': 'UNKNOWN'}


def fs(vendor, product, version='*', update='*'):
    return f'cpe:2.3:a:{vendor}:{product}:{version}:{update}:*:*:*:*:*:*'


def pairs(source, target):
    return list(zip(source.split(':')[2:], target.split(':')[2:]))


def is_pattern(component):
    return component != '*' and not {'*', '?'}.isdisjoint(component)


def covers(source, target):
    return all(one in ('*', other) and not is_pattern(other) for one, other in pairs(source, target))


def may_cover(source, target):
    """Whether it covers it wherever the target is known, which it isn't everywhere."""
    is_known = all(one in ('*', other) for one, other in pairs(source, target) if not is_pattern(other))
    return is_known and any(is_pattern(other) for _, other in pairs(source, target))


# ---- rows


class Rows:
    """The rows that accepted records leave."""

    def __init__(self, records):
        self.successors, self.items, self.statements, self.results = {}, [], [], {}
        for record in records:
            getattr(self, record['do'])(record)

    def entry(self, record):
        self.successors[record['name']] = None

    def deprecate(self, record):
        self.successors[record['name']] = record['successors']

    def item(self, record):
        self.items.append(record['name'])

    def statement(self, record):
        self.statements.append(record)

    def check(self, record):
        self.results[record['system'], record['href'], record['id']] = record['result']

    def followed(self, mode):
        return self.successors if mode == 'follow' else {}

    def ends(self, mode, name):
        """In the order of the entries."""
        entries = self.followed(mode)
        if name not in entries:
            return [name]
        found, waiting = set(), [name]
        while waiting:
            one = waiting.pop()
            if one not in found:
                found.add(one)
                waiting.extend(entries[one] or ())
        return [one for one in entries if one in found and entries[one] is None]

    def result(self, key):
        return self.results.get((key['system'], key['href'], key['id']), 'UNKNOWN')

    def fits(self, mode, fact, relates=covers):
        for item in self.items:
            for end in self.ends(mode, item):
                for other in self.ends(mode, fact):
                    if relates(other, end):
                        yield item, end, other

    def first_fit(self, mode, fact):
        """The first child with the truth that it makes; a covered item is before one that may be covered."""
        for truth, relates in (('TRUE', covers), ('UNKNOWN', may_cover)):
            fit = next(self.fits(mode, fact, relates), None)
            if fit is not None:
                return truth, fit
        return 'FALSE', None


# ---- the certificate that is made


def joined(op, negate, truths):
    order = AND if op == 'AND' else OR
    truth = next((one for one in order if one in truths), order[-1])
    return NOT[truth] if negate else truth


def way(rows, mode, name, end):
    names = [name]
    while names[-1] != end:
        names.append(next(one for one in rows.followed(mode)[names[-1]] if end in rows.ends(mode, one)))
    return names


def why(rows, mode, test):
    if 'op' in test:
        of = [why(rows, mode, child) for child in test['of']]
        truths = [one['truth'] for one in of]
        first = 'FALSE' if test['op'] == 'AND' else 'TRUE'
        if first in truths:
            of = [one if place == truths.index(first) else None for place, one in enumerate(of)]
        return {'of': of, 'truth': joined(test['op'], test.get('negate', False), truths)}
    if 'check' in test:
        return {'truth': rows.result(test['check'])}
    truth, fit = rows.first_fit(mode, test['fact'])
    if fit is None:
        return {'truth': truth}
    item, end, other = fit
    return {'fact': way(rows, mode, test['fact'], other), 'item': way(rows, mode, item, end), 'truth': truth}


def line(record):
    return json.dumps(record, separators=(',', ':'), sort_keys=True)


def certificate(rows, statement):
    return {'do': 'proof', 'id': statement['id'], 'why': why(rows, statement.get('mode', 'plain'), statement['test'])}


# ---- the test of one


def is_trace(rows, mode, name, names):
    entries = rows.followed(mode)
    if names[:1] != [name] or any(following not in (entries.get(before) or ()) for before, following in zip(names, names[1:])):
        return False
    return entries.get(names[-1]) is None


def is_good(rows, mode, test, given):
    truth = given['truth']
    if 'op' in test:
        of = given.get('of')
        if of is None or len(of) != len(test['of']):
            return False
        if not all(one is None or is_good(rows, mode, child, one) for child, one in zip(test['of'], of)):
            return False
        truths = [one['truth'] for one in of if one is not None]
        negate = test.get('negate', False)
        first = 'FALSE' if test['op'] == 'AND' else 'TRUE'
        alone = NOT[first] if negate else first
        return (None not in of and truth == joined(test['op'], negate, truths)) or (first in truths and truth == alone)
    if 'of' in given:
        return False
    if 'check' in test:
        return 'fact' not in given and 'item' not in given and truth == rows.result(test['check'])
    if 'fact' in given or 'item' in given:
        fact, item = given['fact'], given['item']
        begins = item[0] in rows.items and is_trace(rows, mode, item[0], item) and is_trace(rows, mode, test['fact'], fact)
        if truth == 'UNKNOWN':
            return begins and may_cover(fact[-1], item[-1]) and rows.first_fit(mode, test['fact'])[0] != 'TRUE'
        return truth == 'TRUE' and begins and covers(fact[-1], item[-1])
    return truth == 'FALSE' and rows.first_fit(mode, test['fact'])[0] == 'FALSE'


def has_form(given, depth=1):
    if not isinstance(given, dict) or given.get('truth') not in TRUTHS or not isinstance(given['truth'], str):
        return False
    if 'of' in given:
        of = given['of']
        return isinstance(of, list) and depth <= 32 and all(one is None or has_form(one, depth + 1) for one in of)
    if 'fact' in given or 'item' in given:
        sides = given.get('fact'), given.get('item')
        return all(isinstance(side, list) and side and all(isinstance(one, str) for one in side) for side in sides)
    return True


def says_of(rows, text):
    """What `check` has to answer: `holds`, `fails`, `absent`, or None if it refuses the line or the test here doesn't
    know."""
    try:
        proof = json.loads(text)
    except ValueError:
        return None
    if not isinstance(proof, dict) or proof.get('do') != 'proof' or not isinstance(proof.get('id'), str) or not has_form(proof.get('why')):
        return None
    statement = next((one for one in rows.statements if one['id'] == proof['id']), None)
    if statement is None:
        return 'absent'
    return 'holds' if is_good(rows, statement.get('mode', 'plain'), statement['test'], proof['why']) else 'fails'


# ---- trying the program


def sample():
    a, b, c, d, e = (fs('v', 'p', version) for version in 'abcde')
    old, new = fs('u', 'r', '0'), fs('v', 's', '2')
    key = {'system': 'oval', 'href': 'debian.xml', 'id': 'def:1'}
    other = {**key, 'id': 'def:2'}
    date = {'date': '2024-01-01'}
    records = [{'do': 'entry', 'name': name} for name in (a, b, c, d, e, old, new)]
    records += [
        {'do': 'deprecate', 'name': b, 'kind': 'ADDITIONAL_INFORMATION', 'successors': [d, e], **date},
        {'do': 'deprecate', 'name': c, 'kind': 'NAME_REMOVAL', 'successors': [], **date},
        {'do': 'deprecate', 'name': a, 'kind': 'ADDITIONAL_INFORMATION', 'successors': [c, b], **date},
        {'do': 'deprecate', 'name': old, 'kind': 'NAME_CORRECTION', 'successors': [new], **date},
        *({'do': 'item', 'name': name} for name in (c, a, fs('w', 'q', '1'), e, fs('u', 'r', '1.*'), fs('u', 'r', '?2'), fs('v', 's?', '2'))),
        {'do': 'check', **key, 'result': 'ERROR'},
    ]
    tests = {
        'plain': ('plain', {'op': 'AND', 'of': [{'fact': fs('v', 'p')}, {'op': 'OR', 'negate': True, 'of': [{'check': other}]}]}),
        'follow': ('follow', {'op': 'AND', 'of': [{'fact': e}, {'fact': a}]}),
        'led': ('follow', {'op': 'OR', 'of': [{'fact': c}, {'check': key}, {'fact': b}, {'fact': d}]}),
        'removed': ('follow', {'op': 'OR', 'negate': True, 'of': [{'fact': c}, {'fact': fs('x', '*')}]}),
        'first': ('plain', {'op': 'AND', 'of': [{'check': key}, {'fact': d}, {'fact': b}]}),
        'deep': ('plain', {'op': 'OR', 'of': [{'op': 'AND', 'of': [{'op': 'OR', 'negate': True, 'of': [{'fact': d}]}, {'fact': a}]}, {'fact': d}]}),
        'part': ('plain', {'op': 'OR', 'of': [{'fact': fs('u', 'r', '1.5')}, {'fact': fs('x', '*')}]}),
        'part-led': ('follow', {'op': 'AND', 'of': [{'fact': old}, {'fact': fs('w', 'q')}]}),
        'part-beside': ('plain', {'op': 'OR', 'negate': True, 'of': [{'fact': fs('v', 's')}, {'fact': fs('w', 'q')}, {'fact': fs('u', 'r')}]}),
        'part-and-error': ('plain', {'op': 'AND', 'of': [{'fact': fs('u', '*')}, {'op': 'OR', 'of': [{'check': key}, {'fact': old}]}]}),
        'vendor': ('follow', {'op': 'AND', 'of': [{'fact': fs('w', '*')}, {'check': key}, {'fact': fs('*', '*')}]}),
    }
    return records + [{'do': 'statement', 'id': id, 'mode': mode, 'test': test} for id, (mode, test) in tests.items()]


TOKEN = re.compile(r'"(?:[^"\\]|\\.)*"|null|[{}\[\],:]')


def changed(text, others, dice):
    """The text with one token that is another."""
    tokens = TOKEN.findall(text)
    place = dice.randrange(len(tokens))
    tokens[place] = dice.choice([one for one in others if one != tokens[place]])
    return ''.join(tokens)


def answers(program, word, lines):
    ended = subprocess.run([program, word], input=''.join(f'{one}\n' for one in lines), capture_output=True, text=True, timeout=100, check=False)
    return ended.stdout.splitlines()


def main():
    words = argparse.ArgumentParser()
    words.add_argument('program')
    words.add_argument('--changes', type=int, default=1000)
    asked = words.parse_args()
    records = sample()
    rows = Rows(records)
    lines = [line(record) for record in records]
    proofs = [line(certificate(rows, statement)) for statement in rows.statements]
    failed = 0
    if any(says_of(rows, proof) != 'holds' for proof in proofs):
        failed += 1
        print('FAILED a certificate that is made here is not good by the test that stands here')
    for wanted, told in zip(proofs, answers(asked.program, 'explain', lines) + [''] * len(proofs)):
        if wanted != told:
            failed += 1
            print(f'FAILED explain: {told} and not {wanted}')
    dice = random.Random(7)
    others = ['null', *'{}[],:', *(f'"{truth}"' for truth in TRUTHS), *(json.dumps(one) for one in [*rows.successors, *rows.items])]
    others += ['"proof"', '"do"', '"id"', '"why"', '"of"', '"fact"', '"item"', '"truth"', *(json.dumps(one['id']) for one in rows.statements)]
    tried = proofs + [changed(dice.choice(proofs), others, dice) for _ in range(asked.changes)]
    told = answers(asked.program, 'check', lines + tried)
    if len(told) != len(tried):
        failed += 1
        print(f'FAILED check: {len(told)} answers to {len(tried)} lines')
    good = 0
    for text, answer in zip(tried, told):
        says = says_of(rows, text)
        good += says == 'holds'
        is_told = answer.startswith('proof ') and answer.endswith(f' {says}') if says else not answer.endswith(' holds')
        # (a name that is none is refused, where the test here finds that it doesn't fit)
        if not is_told and not (says in ('fails', 'absent') and answer.startswith('refused ')):
            failed += 1
            print(f'FAILED check: {answer} and not {says}: {text}')
    print(f'{len(tried)} certificates, {good} of them good')
    return 1 if failed else 0


sys.exit(main())
