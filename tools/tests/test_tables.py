"""Tests of JSON, its schema and its way back, of the tables of fields, and of what is confirmed of a table or after
other commands."""

import csv
import io
import json
import unittest
from pathlib import Path

import by_hand
import runs
import schema

DOCS = runs.TOP / 'docs'
SCHEMA = schema.Schema(json.loads((DOCS / 'day.schema.json').read_text()))
BY_HAND = {name: '\n'.join(getattr(by_hand, name)) for name in ('PAIR', 'ALONE', 'NOBODY', 'MISSING')}
EXAMPLES = [('one-day', '--capacity', '3', '--root', '1'), ('one-wave', '--capacity', '2'),
            ('three-desks', '--capacity', '2'),
            ('packing-at-the-back', '--capacity', '3'), ('small-carts', '--capacity', '3', '--units', '30'),
            ('four-pickers', '--capacity', '2', '--rules', '1', '--pickers', '4')]

# A journal with a refusal of every reason.
REFUSALS = '''journal
0 1 submit W1 -> refused no-orders
1 1 submit W1 O1 O2 -> refused wave-full 65
2 1 submit W1 O1 -> refused known-wave
3 1 submit W1 O1 -> refused unknown-order O1
4 1 submit W1 O1 -> refused order-twice O1
5 1 submit W1 O1 -> refused order-taken O1 W2
6 1 submit W1 O1 -> refused over-cart O1 9
7 8 allot W1 -> refused unknown-wave
8 8 allot W1 -> refused wrong-state done
9 1 release W1 -> refused short A 2 1
10 1 cancel W1 -> refused picking
11 1 pick W1 O1 1-1-L 2 -> refused not-held 1-1-L
12 1 missing W1 O1 1-1-L 2 -> refused too-much 1
13 1 receive 1-1-L A 2 -> refused no-row
14 1 receive 1-1-L A 2 -> refused other-article B
15 1 receive 1-1-L A 2 -> refused too-many 999999
end journal
refills
end refills
stock
end stock
end
'''


def object_of(text):
    done = runs.script('to-json', '-', given=text.encode())
    assert (done.status, done.errors) == (0, ''), done.errors
    return json.loads(done.output)


def unknown(value, told, path='$'):
    """The fields of a value that a schema doesn't name."""
    while '$ref' in told:
        told = SCHEMA.whole['$defs'][told['$ref'].rpartition('/')[2]]
    for form in told.get('anyOf', ()):
        if not any(SCHEMA.faults(value, form)):
            told = form
    if isinstance(value, dict) and 'properties' in told:
        for name in value:
            yield from unknown(value[name], told['properties'][name], '%s.%s'
                               % (path, name)) if name in told['properties'] else ['%s.%s' % (path, name)]
    elif isinstance(value, list) and 'items' in told:
        for each in value:
            yield from unknown(each, told['items'], path + '[]')


class Json(unittest.TestCase):
    def judged(self, text, name):
        found = object_of(text)
        self.assertEqual([], list(SCHEMA.faults(found)), name)
        self.assertEqual([], list(unknown(found, SCHEMA.whole)), name)
        self.assertEqual('waveplan 1', found['format'])
        back = runs.script('from-json', '-', given=json.dumps(found, indent=1, sort_keys=True).encode())
        again = {**found,
                 'waves': [{**wave, 'batches': [{**batch, 'picks': batch['picks'][::-1]} for batch in wave['batches']]}
                           for wave in found['waves']]}
        self.assertEqual((0, '', text), (back.status, back.errors, back.output), name)
        self.assertEqual(text, runs.script('from-json', '-', given=json.dumps(again).encode()).output, name)

    def test_days_that_were_written_by_hand(self):
        for name, text in BY_HAND.items():
            self.judged(text, name)
        self.judged(REFUSALS, 'refusals')

    def test_every_example(self):
        for example, *more in EXAMPLES:
            self.judged(runs.day_of(example, *more).read_text(), example)

    def test_entries_are_parted_into_fields(self):
        entries = object_of(BY_HAND['MISSING'])['journal']
        self.assertEqual({'entry': 0, 'desk': 1, 'command': {'word': 'submit', 'wave': 'W1', 'orders': ['O1', 'O2']},
                          'reply': {'word': 'submitted'}}, entries[0])
        self.assertEqual({'word': 'missing', 'wave': 'W1', 'order': 'O2', 'location': '1-2-L', 'quantity': 1},
                         entries[8]['command'])
        self.assertEqual({'word': 'lost', 'article': 'B', 'quantity': 1}, entries[8]['reply'])
        self.assertEqual({'word': 'refused', 'reason': 'short', 'article': 'B', 'wanted': 4, 'free': 2},
                         entries[10]['reply'])

    def test_a_kind_that_is_not_known_comes_back(self):
        text = REFUSALS.replace('submit W1 -> refused no-orders',
                                'strange W1 7 -> odd A').replace('refused known-wave', 'refused later B 3')
        found = object_of(text)
        self.assertEqual({'word': 'strange', 'arguments': ['W1', '7']}, found['journal'][0]['command'])
        self.assertEqual(text, runs.script('from-json', '-', given=json.dumps(found).encode()).output)

    def test_what_is_no_such_object_is_told(self):
        good = object_of(BY_HAND['PAIR'])
        for given, why in ((b'{', 'is no JSON'), (b'[]', 'no "format"'),
                           (json.dumps({**good, 'format': 'waveplan 2'}).encode(), '"format": "waveplan 2"'),
                           (json.dumps({**good, 'stock': [{}]}).encode(), "KeyError 'location'"),
                           (b'\xff', 'is no JSON'),
                           (json.dumps({**good, 'waves': 7}).encode(), 'is not as to-json writes it')):
            done = runs.script('from-json', '-', given=given)
            self.assertEqual((2, ''), (done.status, done.output), given[:40])
            self.assertIn(why, done.errors)
            self.assertNotIn('Traceback', done.errors)

    def test_an_output_that_was_changed_is_told(self):
        for old, new in (('pick 1-4-L A 1 O1', 'pick 1-4-L A 1 O9'), ('tour 1-0', 'tour 1-0-3'),
                         ('tour 1-0 ', 'tour 1 '), ('certificate {', 'certificate [{'), ('pick 3-1-L', 'pick 3-1'),
                         ('0 1 submit W1 O1 O2 O3', '0 1 submit')):
            done = runs.script('to-json', '-', given=BY_HAND['PAIR'].replace(old, new).encode())
            self.assertEqual((2, ''), (done.status, done.output), new)
            self.assertRegex(done.errors, r'is not as a plan prints it|certificate of wave \S+ is no JSON')

    def test_the_validator_finds_faults(self):
        good = object_of(BY_HAND['PAIR'])
        entry = good['journal'][0]
        for changed in ({'format': 'waveplan 2'}, {'journal': [{**entry, 'desk': 9}]},
                        {'journal': [{**entry, 'entry': '0'}]}, {'stock': {}}, {'crew': {'longest': 1}},
                        {'journal': [{**entry, 'reply': {'word': 'refused', 'reason': 'short'}}]},
                        {'waves': [{**good['waves'][0], 'state': 'maybe'}]},
                        {'refills': [{'entry': -1, 'wave': 'W', 'order': 'O', 'location': '1-1-L', 'quantity': 1}]},
                        {'refills': [{'entry': 1, 'wave': 'W', 'order': 'O', 'location': '1-1-l', 'quantity': 1}]},
                        {'waves': [{**good['waves'][0],
                                    'batches': [{**good['waves'][0]['batches'][0], 'tour': [[1]]}]}]}):
            self.assertNotEqual([], list(SCHEMA.faults({**good, **changed})), changed)
        self.assertNotEqual([], list(SCHEMA.faults({})))


class Fields(unittest.TestCase):
    def test_the_document_names_every_field(self):
        text = (DOCS / 'TABLES.md').read_text()
        names = {name for form in self.forms(SCHEMA.whole) if 'properties' in form for name in form['properties']}
        folder = Path(runs.shelf().name) / 'fields'
        self.assertEqual(0, runs.script('to-csv', '-', folder, given=BY_HAND['PAIR'].encode()).status)
        for path in folder.iterdir():
            self.assertIn('`%s`' % path.name, text)
            names |= set(next(csv.reader(io.StringIO(path.read_text()))))
        self.assertEqual([], sorted(name for name in names if '`%s`' % name not in text))

    def forms(self, told):
        parts = told.values() if isinstance(told, dict) else told if isinstance(told, list) else ()
        yield told if isinstance(told, dict) else {}
        for each in parts:
            yield from self.forms(each)

    def test_orders_are_counted_and_listed_by_two_names(self):
        wave = object_of(BY_HAND['PAIR'])['waves'][0]
        self.assertEqual((3, ['O1', 'O2']), (wave['order_count'], wave['batches'][0]['orders']))


class Confirmed(unittest.TestCase):
    def confirm(self, *words, **files):
        self.folder = runs.put(Path(runs.shelf().name) / 'confirmed',
                               {'day.txt': BY_HAND['MISSING'], **{name + '.csv': text for name, text in files.items()}})
        return runs.script('confirm', self.folder / 'day.txt', *words, folder=self.folder)

    def test_a_table_gives_picks_and_missing_units(self):
        table = 'Location;Order;Wave;Quantity\n1-2-L;O3;W3;3\n01-02-L;O2;W1;1\n3-1-L;O1;W1;0\n3-3-L;O1;W1;1\n'
        done = self.confirm('--from', 'table.csv', table=table)
        self.assertEqual('1,missing,W3,O3,1-2-L,1\n1,missing,W1,O1,3-1-L,1\n'
                         '1,pick,W3,O3,1-2-L,3\n1,pick,W1,O2,1-2-L,1\n1,pick,W1,O1,3-3-L,1\n', done.output)
        self.assertEqual((0, ''), (done.status, done.errors))

    def test_lines_of_one_place_are_added(self):
        done = self.confirm('--from', 'table.csv', '--desk', '2',
                            table='wave,order,location,quantity\nW3,O3,1-2-L,1\n"W3",O3,1-2-L,3\n')
        self.assertEqual('2,pick,W3,O3,1-2-L,4\n', done.output)

    def test_a_table_that_tells_too_much_is_told(self):
        head = 'wave,order,location,quantity\n'
        for table, why in ((head + 'W3,O3,1-2-L,5\n', 'line 2: wave W3 holds 4 for O3 at 1-2-L, and 5 were picked'),
                           (head + 'W1,O1,2-1-L,1\n', 'holds 0 for O1'),
                           (head + 'W2,O3,2-2-L,1\n', 'was cancelled later'), (head + 'W9,O3,2-2-L,1\n', 'no wave W9'),
                           ('a,b\n', 'should have wave,order'),
                           (head + 'W3,O3,1-2,5\n', 'line 2 of'), (head + 'W3,O3\n', 'line 2 of'),
                           ('', 'should have wave,order'), (head + 'W3,O3,1-2-L,x\n', 'a number')):
            done = self.confirm('--from', 'table.csv', table=table)
            self.assertEqual((2, ''), (done.status, done.output), table)
            self.assertIn(why, done.errors)

    def test_what_the_commands_before_tell_is_left_out(self):
        self.assertEqual('1,pick,W1,O2,1-2-L,1\n1,pick,W1,O1,3-1-L,1\n1,pick,W1,O1,3-3-L,1\n',
                         self.confirm('W1').output)
        heading, day = 'desk,command,arguments\n', runs.script('continue', self.folder / 'day.txt').output
        for before in (day, heading):
            done = self.confirm('W1', '--after', 'desks.csv',
                                desks=before + '2,missing,W1,O1,3-1-L,1\n2,missing,W3,O3,1-2-L,1\n')
            self.assertEqual('1,pick,W1,O2,1-2-L,1\n1,pick,W1,O1,3-3-L,1\n', done.output)
        done = self.confirm('--from', 'table.csv', '--after', 'desks.csv',
                            table='wave,order,location,quantity\nW3,O3,1-2-L,2\n',
                            desks=day + '1,missing,W3,O3,1-2-L,1\n')
        self.assertEqual('1,missing,W3,O3,1-2-L,1\n1,pick,W3,O3,1-2-L,2\n', done.output)
        self.assertEqual(self.confirm('W1').output, self.confirm('W1', '--after', 'desks.csv', desks=day).output)
        last = heading + ''.join(day.splitlines(True)[-4:])  # what a run over a store was given last
        for more, due in (('', '1-2-L,1\n1,pick,W1,O1,3-1-L,1\n'), ('1,missing,W1,O1,3-1-L,1\n', '1-2-L,1\n')):
            done = self.confirm('W1', '--after', 'desks.csv', desks=last + more)
            self.assertEqual('1,pick,W1,O2,%s1,pick,W1,O1,3-3-L,1\n' % due, done.output)
        done = self.confirm('W1', '--after', 'desks.csv', desks='no desk file\n')
        self.assertEqual(2, done.status)
        self.assertIn('is no desk file: refused desks row 1 columns', done.errors)

    def test_a_missing_unit_and_what_is_confirmed_after_it_are_answered(self):
        day, name = runs.day_of('one-day', '--capacity', '3'), 'MON-08.00'
        wave = next(each for each in object_of(day.read_text())['waves'] if each['wave'] == name)
        pick = next(each for batch in wave['batches'] for each in batch['picks'] if each['quantity'] > 1
                    and each['location'] != '3-29-R')
        lines = runs.script('continue', day).output + '1,missing,%s,%s,%s,1\n' % (name, pick['order'], pick['location'])
        folder = runs.put(Path(runs.shelf().name) / 'noon',
                          {'desks.csv': lines,
                           **{file: (runs.EXAMPLES / 'one-day' / file).read_bytes() for file in runs.FILES[:3]}})
        for more, refused in (((), 1), (('--after', folder / 'desks.csv'), 0)):
            (folder / 'desks.csv').write_text(lines)
            (folder / 'desks.csv').write_text(lines + runs.script('confirm', day, name, *more).output)
            self.assertEqual(refused,
                             runs.planned(folder, '--capacity', '3').output.count('refused too-much %d'
                                                                                  % (pick['quantity'] - 1)))


if __name__ == '__main__':
    unittest.main()
