"""Tests of what is explained of places in files, of bytes that a terminal would obey, of stores, and of commands that
a journal has refused."""

import re
import unittest
from pathlib import Path

import by_hand
import runs
from floor import refusals, refused_commands
from test_explain import LAYOUT, ORDERS, PLAN, RIGHT, STOCK
from test_tables import REFUSALS

SECOND = '{"version":2,"aisles":3,"slots":4,"pitch":2,"clearance":1,"spacings":[5,5],"depot":1,"end":"front"}'

# A layout, and words of what is explained.
LAYOUTS = [
    ('{\n "version":1,\n "aisles":3 "slots":4}',
     ['place    line 3, column 13:  "aisles":3 "slots":4}', 'a comma is missing here']),
    (LAYOUT.replace('}', ',}'), ['place    line 1, column 81', 'a comma is too many']),
    (LAYOUT + '}', ['place    line 1, column 81', 'something stands behind the end']),
    (LAYOUT.replace('"', '\u201c'), ['line 1, column 2', 'the quotes are not straight']),
    ('\ufeff' + LAYOUT, ['line 1, column 1', 'it begins with a byte order mark']),
    (b'{"version":1,\n\xff}', ['line 2, column 1', 'a byte stands here that is no UTF-8']),
    (LAYOUT.replace('3', '1e999'), ['a number beyond all numbers']),
    (SECOND.replace('[5,5]', '[5,5,5]'), ['there are 3 spacings, and between 3 aisles there are 2']),
    (SECOND.replace('[5,5]', '[5,20000]'), ['number 2 of them is 20000, which is not in the range 1 to 10,000']),
    (SECOND.replace('[5,5]', '[5,"12"]'),
     ['key      spacings: [5, "12"]', 'number 2 of them is "12", which is no whole number']),
    (SECOND.replace('[5,5]', '7'), ['it is no list']),
    (LAYOUT.replace('"aisles":3', '"aisles":"12"'), ['key      aisles: "12"']),
    (LAYOUT.replace('"aisles":3', '"aisles":true'), ['key      aisles: true']),
    (SECOND.replace('"front"', '"Front"'), ['key      end: "Front"']),
]

# A text in place of a location, and words of what is explained.
LOCATIONS = [('A-01-03', 'its aisle is a letter, and it has no side'), ('C-01-03', 'write 3 for C'),
             ('AA.1.3', 'write 27 for AA'), ('01-03', 'it has no side'),
             ('1-1-X', 'aisle, slot, side')]


class Explained(unittest.TestCase):
    def explained(self, files, words=PLAN):
        self.folder = runs.put(Path(runs.shelf().name) / 'told', {**RIGHT, **files})
        return runs.script('explain', *words, folder=self.folder)

    def holds_with_the_program(self, done, words=PLAN):
        self.assertEqual((1, ''), (done.status, done.errors))
        self.assertEqual(runs.waveplan(*words, folder=self.folder).output, done.output.splitlines()[0] + '\n')

    def test_what_is_wrong_with_a_layout_is_told_with_its_place(self):
        for text, words in LAYOUTS:
            with self.subTest(words):
                done = self.explained({'layout.json': text})
                self.holds_with_the_program(done)
                for word in words:
                    self.assertIn(word, done.output)

    def test_a_certificate_that_is_no_json_is_told_with_its_place(self):
        words = 'check --layout layout.json --certificate c.json'.split()
        done = self.explained({'c.json': '{"version":1,,}'}, words)
        self.holds_with_the_program(done, words)
        self.assertIn('place    line 1, column 14', done.output)

    def test_locations_of_other_forms_have_a_cure(self):
        for text, told in LOCATIONS:
            done = self.explained({'stock.csv': STOCK + '%s,B,5\n' % text})
            self.holds_with_the_program(done)
            self.assertIn(told, done.output)

    def test_each_cause_that_the_code_names_is_told(self):
        text = ''.join((runs.TOOLS / 'floor' / name).read_text() for name in ('causes.py', 'explain.py'))
        named = set(re.findall(r"(?:pair|tell)\('([\w-]+)', '([\w-]+)'", text))
        self.assertGreater(len(named), 50)
        self.assertEqual(set(), named - set(refusals.known()))
        self.assertEqual(set(refusals.of('record')), {'columns', 'not-utf8', 'bad-name', 'bad-number', 'out-of-range',
                                                      'unknown-location', 'location-twice', 'unknown-article',
                                                      'unknown-order', 'order-twice', 'unknown-command',
                                                      'desk-number', 'too-many-rows',
                                                      'too-many-places', 'too-many-orders', 'too-many-lines',
                                                      'too-many-waves'})

    def test_bytes_that_a_terminal_would_obey_are_shown(self):
        done = self.explained({'stock.csv': STOCK + '1-2-L,B\x1b[2J\x07\u202e\x9b,5\n'})
        self.assertIn('field    2, article: "B\\x1b[2J\\x07\\u202e\\x9b"', done.output)
        done = self.explained({'stock.csv': STOCK.encode() + b'1-2-L,\xff,5\n'})
        self.assertIn('field    2, article: "\\xff"', done.output)
        done = self.explained({}, [*PLAN, 'od\x1b[2Jd'])
        self.assertIn('word     od\\x1b[2Jd', done.output)
        for each in (done, self.explained({'layout.json': LAYOUT + '\x1b]0;x\x07'})):
            self.assertTrue(all(sign.isprintable() for line in each.output.splitlines() for sign in line), each.output)

    def test_a_store_that_is_no_journal(self):
        store = b'\x01\x00\x00\x00\x1e0 1 submit W1 O1 -> submitted\n\x00'
        words = 'audit --layout layout.json --stock stock.csv --orders orders.csv --journal'.split()
        for name, data, told in (('waveplan.store', store, 'it is the store of a day'),
                                 ('j', STOCK, 'it is a file of stock'),
                                 ('j', 'read fault stock\n', 'the plan was refused')):
            done = self.explained({name: data}, [*words, name])
            self.holds_with_the_program(done, [*words, name])
            self.assertIn(told, done.output)
        (self.folder / 'waveplan.store').write_bytes(b'\x01\x00\x00\x00\x05hello\x00')
        done = runs.script('explain', *PLAN, '--store', '1', folder=self.folder)
        self.holds_with_the_program(done, [*PLAN, '--store', '1'])
        self.assertIn('the file is no store of a journal', done.output)
        (self.folder / 'waveplan.store').write_bytes(b'hello')
        done = runs.script('explain', *PLAN, '--store', '1', folder=self.folder)
        self.assertEqual(0, done.status)
        self.assertIn('it has 5 bytes and no record of a store: a run takes it as an empty store, and writes over it',
                      done.output)
        runs.waveplan(*PLAN, '--store', '1', folder=self.folder)
        self.assertNotIn(b'hello', (self.folder / 'waveplan.store').read_bytes())


class Journals(unittest.TestCase):
    def journal(self, text, *more, **files):
        folder = runs.put(Path(runs.shelf().name) / 'journal',
                          {'day.txt': text, **{name + '.csv': told for name, told in files.items()}})
        return runs.script('explain', 'journal', 'day.txt', *more, folder=folder)

    def test_each_refused_command_has_its_cause_and_cure(self):
        done = self.journal('\n'.join(by_hand.MISSING), '--orders', 'orders.csv',
                            orders='order,article,quantity\nO3,B,3\nO3,B,1\nO3,A,7\nO4,C,9\nO1,B,5\n')
        told = done.output.split('\n\n')
        self.assertEqual((1, '', 3), (done.status, done.errors, len(told)))
        self.assertEqual(['entry    10, desk 1: release W3 -> refused short B 4 2',
                          'cause    the orders of W3 want 4 of B together, and 2 are free',
                          'orders   O3 wants 4', 'later    entry 12 was answered released'], told[0].splitlines()[:4])
        self.assertIn('1 are held there for O2, and 9 were told', told[1])
        self.assertIn('O4 wants 9', told[2])

    def test_every_reason_is_explained(self):
        done = self.journal(REFUSALS)
        self.assertEqual(set(refused_commands.REASONS), set(re.findall(r'refused (\S+)', REFUSALS)))
        told = done.output.split('\n\n')
        self.assertEqual(16, len(told))
        for each in told:
            self.assertRegex(each, r'(?s)\ncause    \S.*\ncure     \S')
        self.assertNotIn('does not know', done.output)
        self.assertIn('does not know', self.journal(REFUSALS.replace('refused known-wave', 'refused later B')).output)

    def test_what_stands_before_is_named(self):
        lines = ['0 1 submit W1 O1 -> submitted', '1 1 submit W2 O1 -> refused order-taken O1 W1',
                 '2 1 release W2 -> refused unknown-wave', '3 1 submit W1 O2 -> refused known-wave',
                 '4 1 release W1 -> released', '5 1 allot W1 -> refused wrong-state released',
                 '6 1 submit W3 O11 -> refused unknown-order O11']
        text = '\n'.join(['journal', *lines, 'end journal', 'refills', 'end refills', 'stock', 'end stock', 'end', ''])
        told = self.journal(text, '--orders', 'orders.csv', orders=ORDERS).output
        for line in ('no wave W2 was submitted: entry 1 would have, and was refused too',
                     'a wave of that name is there, since entry 0',
                     'wave W1 is released, since entry 4', 'perhaps  O1'):
            self.assertIn(line, told)

    def test_a_journal_without_refusals(self):
        done = self.journal('\n'.join(by_hand.PAIR))
        self.assertEqual((0, 'no command was refused\n'), (done.status, done.output))

    def test_what_is_no_output_is_told(self):
        done = self.journal(STOCK)
        self.assertEqual(2, done.status)
        self.assertIn('is no output of', done.errors)
        done = self.journal(REFUSALS.replace('refused short A 2 1', 'refused short A 2'))
        self.assertEqual((2, ''), (done.status, done.output))
        self.assertIn('line 11 of day.txt is not as a plan prints it', done.errors)


if __name__ == '__main__':
    unittest.main()
