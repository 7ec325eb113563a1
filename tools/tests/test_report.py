"""Tests of the report of days: each figure is worked out by hand, over outputs that were written by hand."""

import csv
import io
import json
import os
import random
import re
import unittest
import xml.etree.ElementTree as ElementTree
from pathlib import Path
from unittest import mock

import by_hand
import runs
from floor import many_days, output, report_charts, same_layout, warehouse, wave_times
from opinion import tours

# The layout of by_hand. Carts take two orders and 9 units. The wave of 8 walks 26 and 22, past three lines of 2, 4 and
# 3 units; the bound is 30, half of each order's own tour. The wave of 9.30 is cancelled. C is short at first, by 2; B
# stays short, by 8 and then by 6. One A is held elsewhere, two B are lost.
FILES = {
    'layout.json': by_hand.LAYOUT,
    'stock.csv': 'location,article,on_hand\n1-4-L,A,5\n2-1-L,A,3\n2-4-L,B,5\n3-1-L,C,1\n1-1-L,D,5\n',
    'orders.csv': 'order,article,quantity\nO1,A,2\nO2,B,4\nO3,C,3\nO4,D,1\nO5,B,9\n'}
MONDAY = [
    'journal', '0 1 submit MON-08.00 O1 O2 O3 -> submitted', '1 1 release MON-08.00 -> refused short C 3 1',
    '2 1 receive 3-1-L C 4 -> received', '3 1 release MON-08.00 -> released', '4 1 submit MON-09.30 O4 -> submitted',
    '5 1 release MON-09.30 -> released', '6 1 missing MON-08.00 O1 1-4-L 1 -> refilled 1',
    '7 1 missing MON-08.00 O2 2-4-L 2 -> lost B 2', '8 1 cancel MON-09.30 -> cancelled',
    '9 1 pick MON-09.30 O4 1-1-L 1 -> refused wrong-state cancelled', '10 1 receive 1-2-L E 1 -> refused no-row',
    '11 1 submit MON-11.00 O5 -> submitted', '12 1 release MON-11.00 -> refused short B 9 1',
    '13 1 receive 2-4-L B 2 -> received', '14 1 release MON-11.00 -> refused short B 9 3', 'end journal',
    'wave MON-08.00 entry 3 orders 3 capacity 2 units 9 cost 48 bound 30 open',
    'batch 1 length 26 orders O1 O2', by_hand.ROUND, 'pick 1-4-L A 2 O1', 'pick 2-4-L B 4 O2',
    'rules s-shape 26 0 return 38 12 largest-gap 26 0',
    'batch 2 length 22 orders O3', by_hand.THIRD, 'pick 3-1-L C 3 O3',
    'rules s-shape 22 0 return 22 0 largest-gap 22 0',
    'certificate {"capacity":2,"loads":[2,4,3],"nodes":[{"kind":"kept"}],"orders":[[[1,4]],[[2,4]],[[3,1]]],'
    '"units":9,"version":2}', 'end wave',
    'wave MON-09.30 entry 5 orders 1 capacity 2 units 9 cost 2 bound 1 open cancelled later',
    'batch 1 length 2 orders O4', 'tour 1-0 1-1 1-0', 'pick 1-1-L D 1 O4',
    'rules s-shape 2 0 return 2 0 largest-gap 2 0',
    'certificate {"capacity":2,"loads":[1],"nodes":[{"kind":"kept"}],"orders":[[[1,1]]],"units":9,"version":2}',
    'end wave', 'refills', 'refill 6 MON-08.00 O1 2-1-L 1', 'end refills',
    'crew longest 26 least 26', 'picker 1 load 26 batches MON-08.00/1',
    'picker 2 load 24 batches MON-08.00/2 MON-09.30/1', 'end crew',
    'stock', '1-1-L D 5 5 0', '1-4-L A 4 3 1', '2-1-L A 3 2 1', '2-4-L B 5 3 2', '3-1-L C 5 2 3',
    'end stock', 'end', '']
OF_MONDAY = {
    'waves': 1, 'waves_cancelled': 1, 'waves_not_given': 0, 'waves_proven': 0, 'proven_percent': 0.0,
    'gap_percent': 37.5,  # 18 of 48
    'orders': 3, 'carts': 2, 'orders_percent': 75.0, 'units_percent': 50.0,  # 3 on 4 places, 9 units of 18
    'lines': 3, 'units': 9, 'walk': 48, 'walk_a_line': 16.0, 'metres': 12.0, 'metres_a_line': 4.0,  # 4 units a metre
    's_shape': 48, 's_shape_percent': 0.0, 'return': 60, 'return_percent': 25.0, 'largest_gap': 48,
    'largest_gap_percent': 0.0, 'refused': 5, 'short': 2, 'refilled': 1, 'lost': 2}
LOADS_OF_MONDAY = {'pickers': 2, 'longest_load': 26, 'shortest_load': 24, 'least_load': 26}
BEHIND_MONDAY = {
    'refused': [
        {'reason': 'short', 'article': 'C', 'commands': 1,
         'first_cause': 'the orders of MON-08.00 want 3 of C together, and 1 are free'},
        {'reason': 'wrong-state', 'article': 'D', 'commands': 1,
         'first_cause': 'wave MON-09.30 is cancelled, since entry 8'},
        {'reason': 'no-row', 'article': 'E', 'commands': 1,
         'first_cause': 'the stock file has no record for 1-2-L'},
        {'reason': 'short', 'article': 'B', 'commands': 2,
         'first_cause': 'the orders of MON-11.00 want 9 of B together, and 1 are free'}],
    'short': [{'wave': 'MON-08.00', 'article': 'C', 'wanted': 3, 'free': 1, 'lacking': 2, 'became': 'went out'},
              {'wave': 'MON-11.00', 'article': 'B', 'wanted': 9, 'free': 3, 'lacking': 6, 'became': 'waits'}],
    'missing': [{'location': '1-4-L', 'article': 'A', 'times': 1, 'refilled': 1, 'lost': 0},
                {'location': '2-4-L', 'article': 'B', 'times': 1, 'refilled': 0, 'lost': 2}],
    'loads': [{'run': 'monday', 'picker': 1, 'load': 26, 'walked': 26, 'carts': 1},
              {'run': 'monday', 'picker': 2, 'load': 24, 'walked': 22, 'carts': 2}],
    'hours': [{'hour': 8, 'waves': 1, 'carts': 2, 'lines': 3, 'walk': 48}]}

# Carts of one order, printed without --rules and --pickers: 14 and 24, two lines, 6 units.
TUESDAY = [
    'journal', '0 1 submit TUE-08.30 O1 O2 -> submitted', '1 1 release TUE-08.30 -> released', 'end journal',
    'wave TUE-08.30 entry 1 orders 2 capacity 1 cost 38 bound 38 proven',
    'batch 1 length 14 orders O1', by_hand.FIRST, 'pick 1-4-L A 1 O1',
    'batch 2 length 24 orders O2', by_hand.SECOND, 'pick 2-4-L B 5 O2',
    'certificate {"capacity":1,"nodes":[{"kind":"kept"}],"orders":[[[1,4]],[[2,4]]],"version":1}', 'end wave',
    'refills', 'end refills', 'stock', '1-4-L A 5 4 1', '2-4-L B 5 0 5', 'end stock', 'end', '']

# Two waves within one hour: 14 and 24 on carts of one order, proven; 22 on a cart for two, of which half is bound.
TWO_WAVES = [
    'journal', '0 1 submit W-0815 O1 O2 -> submitted', '1 1 release W-0815 -> released',
    '2 1 submit W-0850 O3 -> submitted', '3 1 release W-0850 -> released', 'end journal',
    'wave W-0815 entry 1 orders 2 capacity 1 cost 38 bound 38 proven', *TUESDAY[5:11], 'end wave',
    'wave W-0850 entry 3 orders 1 capacity 2 cost 22 bound 11 open',
    'batch 1 length 22 orders O3', by_hand.THIRD, 'pick 3-1-L C 1 O3', 'end wave',
    'refills', 'end refills', 'stock', '1-4-L A 5 4 1', '2-4-L B 5 0 5', '3-1-L C 5 4 1', 'end stock', 'end', '']

# Two runs over one store. In the morning W1 walks 14 and W2 24; at noon W2 is cancelled and W3 walks 22.
MORNING = [
    'journal', '0 1 submit W1 O1 -> submitted', '1 1 release W1 -> released', '2 1 submit W2 O2 -> submitted',
    '3 1 release W2 -> released', 'end journal',
    'wave W1 entry 1 orders 1 capacity 2 cost 14 bound 7 open', *TUESDAY[5:8], 'end wave',
    'wave W2 entry 3 orders 1 capacity 2 cost 24 bound 12 open', 'batch 1 length 24 orders O2', by_hand.SECOND,
    'pick 2-4-L B 1 O2', 'end wave', 'refills', 'end refills',
    'crew longest 24 least 24', 'picker 1 load 14 batches W1/1', 'picker 2 load 24 batches W2/1', 'end crew',
    'stock', '1-4-L A 5 4 1', '2-4-L B 5 4 1', '3-1-L C 5 5 0', 'end stock', 'end', '']
ENTRIES = [*MORNING[:5], '4 1 cancel W2 -> cancelled', '5 1 submit W3 O3 -> submitted', '6 1 release W3 -> released',
           'end journal']
CLOSING = ['refills', 'end refills', 'stock', '1-4-L A 5 4 1', '2-4-L B 5 5 0', '3-1-L C 5 4 1', 'end stock', 'end', '']
W3 = ['wave W3 entry 6 orders 1 capacity 2 cost 22 bound 11 open', 'batch 1 length 22 orders O3', by_hand.THIRD,
      'pick 3-1-L C 1 O3', 'end wave']
NOON = [*ENTRIES, *W3, *CLOSING[:2], 'crew longest 22 least 22', 'picker 1 load 22 batches W3/1',
        'picker 2 load 0 batches', 'end crew', *CLOSING[2:]]
SEEN = [*ENTRIES, *CLOSING]  # a run that adds nothing prints the journal and the stock
# The same day planned anew without a store: all sheets stand in one output.
WHOLE = [*ENTRIES, *MORNING[6:11], MORNING[11] + ' cancelled later', *MORNING[12:16], *W3, *CLOSING]

DAYS = {'monday': MONDAY, 'tuesday': TUESDAY, 'two-waves': TWO_WAVES, 'morning': MORNING, 'noon': NOON, 'seen': SEEN,
        'whole': WHOLE, 'nobody': by_hand.NOBODY}


def folder_with(**days):
    """A folder with days, each a list of lines."""
    return runs.put(Path(runs.shelf().name) / 'report', {
        **FILES, **{name + '.txt': '\n'.join(lines) for name, lines in {**DAYS, **days}.items()}})


def report(*words, **days):
    """Runs the script with words, in a folder that has the days above and others."""
    return runs.script('report', *words, folder=folder_with(**days))


def told(*words, **days):
    """The object of a report. Fails where there is none."""
    done = report('--json', '-', *words, **days)
    assert (done.status, done.errors) == (0, ''), done.errors
    return json.loads(done.output)


def records(text):
    return list(csv.DictReader(io.StringIO(text)))


def some(row, *keys):
    return tuple(row.get(key) for key in keys)


class OneDay(unittest.TestCase):
    maxDiff = None

    def test_every_figure(self):
        found = told('--per-metre', '4', 'monday.txt')
        means = {key: float(value) for key, value in {**OF_MONDAY, **LOADS_OF_MONDAY}.items()}
        self.assertEqual({
            'format': 'waveplan report 1', 'per_metre': 4.0,
            'days': [{'day': 'monday', **OF_MONDAY, **LOADS_OF_MONDAY}], 'sum': OF_MONDAY, 'mean': means,
            **{name: [{'day': 'monday', **row} for row in rows] for name, rows in BEHIND_MONDAY.items()}, 'notes': []},
            found)

    def test_the_second_opinion_finds_the_day_right(self):
        lines = ['desk,command,arguments'] + [
            '1,' + ','.join(line.split(' -> ')[0].split()[2:]) for line in MONDAY[1:MONDAY.index('end journal')]]
        folder = runs.put(folder_with(), {'desks.csv': '\n'.join(lines) + '\n'})
        words = '--capacity 2 --units 9 --rules 1 --pickers 2 --budget 0'.split()
        done = runs.script('second-opinion', 'plan', *runs.options(folder), *words, folder / 'monday.txt')
        self.assertEqual((0, ''), (done.status, done.errors), done.output)

    def test_the_tables_have_the_same(self):
        self.assertEqual(0, report('--per-metre', '4', '--tables', 'tables', 'monday.txt').status)
        tables = {path.stem: path.read_bytes().decode() for path in (folder_with() / 'tables').iterdir()}
        self.assertEqual({'days', *BEHIND_MONDAY}, set(tables))
        for name, rows in BEHIND_MONDAY.items():
            self.assertEqual([{'day': 'monday', **{key: str(value) for key, value in row.items()}} for row in rows],
                             records(tables[name]))
        self.assertEqual([{'row': 'day', 'day': 'monday', **{
            key: str(value) for key, value in {**OF_MONDAY, **LOADS_OF_MONDAY}.items()}}], records(tables['days'])[:1])
        self.assertTrue(tables['days'].endswith('\r\n'))
        self.assertEqual(tables['days'], report('--per-metre', '4', '--csv', '-', 'monday.txt').output)

    def test_the_text_has_the_same(self):
        lines = [' '.join(line.split()) for line in report('monday.txt').output.splitlines()]
        self.assertEqual("1 day, lengths in the days' own units, those of the layout file", lines[0])
        for line in ('day waves cancelled carts orders lines units walk in own units own units a line',
                     'monday 1 1 2 3 3 9 48 16.0', 'monday 0.0 37.5 75.0 50.0', 'monday 0.0 25.0 0.0',
                     'monday 5 2 1 2', 'monday 2 26 24 26', '2 2 24 22', '08 1 2 3 48',
                     '1 1 no-row E the stock file has no record for 1-2-L', 'B 6 1 1 1', 'C 2 1 0 1',
                     '1-4-L A 1 1 1 0', '2-4-L B 1 1 0 2'):
            self.assertIn(line, lines)
        self.assertFalse({'sum', 'mean'} & {line.split(' ')[0] for line in lines})
        self.assertIn('1 day, lengths in metres, of 0.5 units of the layout file each\n',
                      report('--per-metre', '0.5', 'monday.txt').output)
        lines = [' '.join(line.split()) for line in report('--per-metre', '4', 'monday.txt').output.splitlines()]
        self.assertEqual('1 day, lengths in metres, of 4 units of the layout file each', lines[0])
        for line in ('day waves cancelled carts orders lines units walk in metres metres a line',
                     'monday 1 1 2 3 3 9 12.0 4.0', 'monday 2 6.5 6.0 6.5', '2 2 6.0 5.5', '08 1 2 3 12.0'):
            self.assertIn(line, lines)

    def test_two_waves(self):
        found = told('two-waves.txt')
        self.assertEqual((2, 1, 50.0, 25.0, 60, 20.0, 75.0),  # gaps of 0 and 50; 3 orders on 1 + 1 + 2 places
                         some(found['days'][0], 'waves', 'waves_proven', 'proven_percent', 'gap_percent', 'walk',
                              'walk_a_line', 'orders_percent'))
        self.assertEqual([{'day': 'two-waves', 'hour': 8, 'waves': 2, 'carts': 3, 'lines': 3, 'walk': 60}],
                         found['hours'])
        self.assertFalse({'units_percent', 's_shape', 'return_percent', 'pickers'} & set(found['days'][0]))

    def test_a_wave_that_was_cancelled_counts_in_no_figure_of_waves(self):
        found = told('alone.txt', alone=by_hand.ALONE)  # three carts walk 60, and a fourth 2, which is cancelled
        self.assertEqual((1, 1, 1, 3, 3, 3, 3, 60, 60, 100.0), some(
            found['days'][0], 'waves', 'waves_cancelled', 'waves_proven', 'orders', 'carts', 'lines', 'units', 'walk',
            'return', 'orders_percent'))
        self.assertEqual([(36, 36), (26, 24)], [some(row, 'load', 'walked') for row in found['loads']])

    def test_the_article_of_a_refused_command(self):
        """It is the one that the command names, or else its reply, or the row; an order that is too much has none."""
        entries = ('receive 3-1-L A 1 -> refused other-article C', 'pick W1 O1 01-4-L 9 -> refused too-much 1',
                   'allot W1 -> refused short B 2 1', 'submit W1 O1 -> refused over-cart O1 9',
                   'missing W1 O1 9-9-L 1 -> refused not-held 9-9-L')
        day = ['journal', *('%d 1 %s' % each for each in enumerate(entries)), 'end journal', 'refills', 'end refills',
               *by_hand.CLOSING]
        self.assertEqual([('other-article', 'A'), ('too-much', 'A'), ('short', 'B'), ('over-cart', None),
                          ('not-held', None)],
                         [some(row, 'reason', 'article') for row in told('day.txt', day=day)['refused']])

    def test_the_last_refusal_of_a_wave_and_article_counts(self):
        entries = ('release W1 -> refused short A 2 1', 'release W1 -> refused short B 3 1',
                   'release W1 -> refused short A 2 0', 'allot W2 -> refused short B 9 8', 'cancel W2 -> cancelled',
                   'allot W3 -> refused short B 9 7', 'allot W3 -> allotted')
        day = ['journal', *('%d 1 %s' % each for each in enumerate(entries)), 'end journal', *by_hand.NOBODY[2:]]
        self.assertEqual([('W1', 'B', 2, 'waits'), ('W1', 'A', 2, 'waits'), ('W2', 'B', 1, 'cancelled'),
                          ('W3', 'B', 2, 'allotted')],
                         [some(row, 'wave', 'article', 'lacking', 'became')
                          for row in told('day.txt', day=day)['short']])

    def test_texts_stand_in_the_place_of_names(self):
        folder = runs.put(folder_with(), {'names.csv': 'name,text\nW-0815,Monday 09:15\nW-0850,first\n'})
        found = told('--names', folder / 'names.csv', 'two-waves.txt')
        self.assertEqual([{'day': 'two-waves', 'hour': 9, 'waves': 1, 'carts': 2, 'lines': 2, 'walk': 38},
                          {'day': 'two-waves', 'waves': 1, 'carts': 1, 'lines': 1, 'walk': 22}], found['hours'])
        self.assertIn('none      1      1      1                 22',
                      report('--names', folder / 'names.csv', 'two-waves.txt').output)


class ManyDays(unittest.TestCase):
    def test_sum_and_mean(self):
        found = told('monday.txt', 'tuesday.txt')
        keys = ('waves', 'waves_cancelled', 'waves_proven', 'proven_percent', 'gap_percent', 'orders', 'carts',
                'orders_percent', 'units_percent', 'lines', 'units', 'walk', 'walk_a_line', 'return', 'return_percent',
                'refused', 'lost', 'longest_load')
        self.assertEqual((1, 0, 1, 100.0, 0.0, 2, 2, 100.0, None, 2, 6, 38, 19.0, None, None, 0, 0, None),
                         some(found['days'][1], *keys))
        # 5 orders on 4 + 2 places, 9 units of 18 where that is told, 86 for 5 lines, return past Monday's carts alone.
        self.assertEqual((2, 1, 1, 50.0, 18.75, 5, 4, 83.33, 50.0, 5, 15, 86, 17.2, 60, 25.0, 5, 2, None),
                         some(found['sum'], *keys))
        self.assertEqual((1.0, 0.5, 0.5, 50.0, 18.75, 2.5, 2.0, 87.5, 50.0, 2.5, 7.5, 43.0, 17.5, 60.0, 25.0, 2.5, 1.0,
                          26.0), some(found['mean'], *keys))
        self.assertEqual(['tuesday: carts were printed without --rules 1, so what usual rules walk past their picks is '
                          'missing.'], found['notes'])

    def test_a_record_for_each_day_the_sum_and_the_mean(self):
        rows = records(report('--csv', '-', 'monday.txt', 'tuesday.txt').output)
        self.assertEqual([('day', 'monday', '48', '60', ''), ('day', 'tuesday', '38', '', ''),
                          ('sum', '', '86', '60', ''), ('mean', '', '43.0', '60.0', '')],
                         [some(row, 'row', 'day', 'walk', 'return', 'metres') for row in rows])

    def test_days_are_added_up_behind_the_lines(self):
        lines = [line.replace('MON-', 'WED-').replace('3-1-L 1', '3-1-L 2') for line in MONDAY]
        page = report('monday.txt', 'wednesday.txt', wednesday=lines).output
        lines = [' '.join(line.split()) for line in page.splitlines()]
        for line in ('sum 2 2 4 6 6 18 96 16.0', 'mean 1.0 1.0 2.0 3.0 3.0 9.0 48.0 16.0', '08 2 4 6 96',
                     '4 2 short B the orders of MON-11.00 want 9 of B together, and 1 are free', 'B 12 2 2 2',
                     '2-4-L B 2 2 0 4'):
            self.assertIn(line, lines)

    def test_a_day_without_waves(self):
        found = told('nobody.txt', 'tuesday.txt')
        self.assertEqual((0, 0, None, None, None, 0, 1, 0),
                         some(found['days'][0], 'waves', 'walk', 'walk_a_line', 'proven_percent', 'orders_percent',
                              'orders', 'pickers', 'longest_load'))
        self.assertEqual((38, 19.0, 19.0), (found['sum']['walk'], found['mean']['walk'], found['sum']['walk_a_line']))
        self.assertEqual(100.0, found['mean']['proven_percent'])  # of the one day that has waves
        self.assertIn('nobody: no wave went out that was not cancelled later.', found['notes'])
        self.assertIn('nobody      0          0      0       0      0      0                  0                 -\n',
                      report('nobody.txt').output)
        self.assertEqual(0, report('nobody.txt', '--page', 'nobody.html').status)

    def test_long_lists_are_cut(self):
        locations = ['%d-%d-L' % (aisle, slot) for aisle in range(1, 8) for slot in range(1, 4)]
        lines = ['journal', *('%d 1 missing W1 O1 %s 1 -> lost A 1' % each for each in enumerate(locations)),
                 'end journal', *by_hand.NOBODY[2:]]
        text = report('lost.txt', lost=lines).output
        self.assertIn('\nrows left out: 1, which --json and --tables have\n', text)
        self.assertIn('\n7-2-L ', text)
        self.assertNotIn('\n7-3-L ', text)
        self.assertEqual(21, len(told('lost.txt', lost=lines)['missing']))
        days = {'d%02d' % day: [line.replace('TUE', 'D%02d' % day) for line in TUESDAY] for day in range(12)}
        notes = told(*(day + '.txt' for day in days), **days)['notes']
        self.assertIn('d08, d09 and 2 more: carts were printed', notes[0])


class OutputsOfOneDay(unittest.TestCase):
    """Several outputs of one day are told, and count once."""

    def test_runs_over_a_store(self):
        for words in (('morning.txt', 'noon.txt'), ('noon.txt', 'morning.txt')):
            found = told(*words)
            self.assertEqual([('noon', 2, 1, 0, 36, 2)], [  # W1 and W3 count: 14 and 22
                some(row, 'day', 'waves', 'waves_cancelled', 'waves_not_given', 'walk', 'lines')
                for row in found['days']])
            self.assertIn('noon goes on from morning: both are one day.', found['notes'])
            self.assertEqual([('morning', 1, 14, 14), ('morning', 2, 24, 0), ('noon', 1, 22, 22), ('noon', 2, 0, 0)],
                             [some(row, 'run', 'picker', 'load', 'walked') for row in found['loads']])
            self.assertEqual((2, 24, 14, 24), some(found['days'][0], 'pickers', 'longest_load', 'shortest_load',
                                                   'least_load'))
        self.assertRegex(report('morning.txt', 'noon.txt').output, r'\nmorning +2 +1 +24 +0\nnoon +1 +1 +22 +22\n')

    def test_a_run_that_adds_nothing(self):
        found = told('seen.txt', 'noon.txt', 'morning.txt')
        self.assertEqual([('seen', 2, 1, 36)], [some(row, 'day', 'waves', 'waves_cancelled', 'walk')
                                                for row in found['days']])
        self.assertEqual(['seen goes on from noon: both are one day.', 'seen goes on from morning: both are one day.'],
                         found['notes'][:2])

    def test_a_run_whose_earlier_outputs_are_not_given(self):
        found = told('noon.txt')
        self.assertEqual((1, 1, 1, 22), some(found['days'][0], 'waves', 'waves_cancelled', 'waves_not_given', 'walk'))
        self.assertIn('noon: waves went out in earlier runs over its store whose outputs are not given, so their carts '
                      'do not count.', found['notes'])
        found = told('seen.txt')
        self.assertEqual((0, 1, 2, 0), some(found['days'][0], 'waves', 'waves_cancelled', 'waves_not_given', 'walk'))
        self.assertFalse([note for note in found['notes'] if 'no wave went out' in note])

    def test_an_earlier_plan_of_a_day(self):
        found = told('whole.txt', 'morning.txt')
        self.assertEqual([('whole', 2, 1, 0, 36)], [some(row, 'day', 'waves', 'waves_cancelled', 'waves_not_given',
                                                         'walk') for row in found['days']])
        self.assertIn('morning is an earlier output of the day of whole: that one counts.', found['notes'])

    def test_the_same_output_twice(self):
        found = told('monday.txt', 'copy.txt', 'tuesday.txt', copy=MONDAY)
        self.assertEqual(['monday', 'tuesday'], [row['day'] for row in found['days']])
        self.assertEqual('copy is the same output as monday: it counts once.', found['notes'][0])
        self.assertEqual(86, found['sum']['walk'])
        self.assertEqual('tuesday.txt is the same output as tuesday.txt: it counts once.',
                         told('tuesday.txt', 'tuesday.txt')['notes'][0])

    def test_the_same_journal_with_other_sheets(self):
        other = [line.replace('cost 38 bound 38 proven', 'cost 38 bound 19 open') for line in TUESDAY]
        found = told('tuesday.txt', 'other.txt', other=other)
        self.assertEqual('other has the journal of tuesday and other sheets: both count in the sum.',
                         found['notes'][0])
        self.assertEqual((2, 76, 25.0), some(found['sum'], 'waves', 'walk', 'gap_percent'))

    def test_days_of_one_file_name(self):
        folder = folder_with()
        runs.put(folder / 'more', {'monday.txt': '\n'.join(TUESDAY)})
        self.assertEqual(['monday.txt', 'more/monday.txt', 'two-waves'], [
            row['day'] for row in told('monday.txt', 'more/monday.txt', 'two-waves.txt')['days']])


def day_of(*batches, rows=('1-4-L A 5 4 1',), name='W1'):
    """A day of one wave with batches, each a length and a tour."""
    lines = ['journal', '0 1 submit %s O1 -> submitted' % name, '1 1 release %s -> released' % name, 'end journal',
             'wave %s entry 1 orders 1 capacity 1 cost 2 bound 2 proven' % name]
    for number, (length, tour) in enumerate(batches, 1):
        lines += ['batch %d length %d orders O%d' % (number, length, number), tour]
    return [*lines, 'end wave', 'refills', 'end refills', 'stock', *rows, 'end stock', 'end', '']


class Layouts(unittest.TestCase):
    """A report is of days of one layout."""

    # In the layout of by_hand a tour into aisle 1 up to slot 4 is 14 long, and one round aisles 1 and 2 is 26.
    DAY = day_of((14, by_hand.FIRST), (26, by_hand.ROUND))

    def judge(self, why, *words, **days):
        done = report(*words, **days)
        self.assertEqual((2, '', 1), (done.status, done.output, done.errors.count('\n')), done.errors)
        self.assertIn(why, done.errors)

    def test_days_of_other_layouts_are_told(self):
        for why, other in (
                ('a tour begins at 2-0, and one of day at 1-0', day_of((2, 'tour 2-0 2-1 2-0'), name='W2')),
                ('a tour begins at 1-5, and one of day at 1-0', day_of((2, 'tour 1-5 1-4 1-5'), name='W2')),
                ('the back end of its aisles is slot 3, and in day slot 5',
                 day_of((26, 'tour 1-0 1-1 1-2 1-3 2-3 2-2 2-1 2-0 1-0'), name='W2', rows=())),
                ('other has a row at slot 5, and in day slot 5 is the back end of an aisle',
                 day_of((14, by_hand.FIRST), name='W2', rows=('1-5-R A 1 1 0',))),
                ('no layout gives the tours of both their lengths', day_of((26, by_hand.FIRST), name='W2'))):
            why = 'other is of another layout than the days before it: ' + why
            self.judge(why, 'day.txt', 'other.txt', day=self.DAY, other=other)
        self.judge('day has a row at slot 5, and in other slot 5 is the back end', 'day.txt', 'other.txt',
                   day=day_of((14, by_hand.FIRST), rows=('1-5-R A 1 1 0',)), other=self.DAY)

    def test_a_day_that_was_changed_is_told(self):
        for why, day in (
                ('no layout gives the tours of day the lengths', day_of((14, by_hand.FIRST), (16, by_hand.FIRST))),
                ('no layout gives the tours of day the lengths', day_of((14, 'tour 1-0 1-2 1-0'))),
                ('the tours of day are of no one layout: a tour begins at 2-0, and one of day at 1-0',
                 day_of((14, by_hand.FIRST), (2, 'tour 2-0 2-1 2-0')))):
            self.judge(why, 'day.txt', day=day)

    def test_the_layout_of_the_days(self):
        self.assertEqual(0, report('--layout', 'layout.json', 'monday.txt', 'tuesday.txt').status)
        longer = runs.put(folder_with(), {'longer.json': by_hand.LAYOUT.replace('"pitch":2', '"pitch":3'),
                                          'less.json': by_hand.LAYOUT.replace('"slots":4', '"slots":3'),
                                          'two.json': by_hand.LAYOUT.replace('"aisles":3', '"aisles":2')})
        for name, why in (('longer', 'monday: the tour of MON-08.00, batch 1, is not as long in the layout'),
                          ('less', 'monday: the tour of MON-08.00, batch 1, goes to 2-5, which the layout has not'),
                          ('two', 'monday: the tour of MON-08.00, batch 2, goes to 3-0')):
            self.judge(why, '--layout', longer / (name + '.json'), 'monday.txt')
        self.judge('stocked has a row at 3-1-L, which the layout has not', '--layout', longer / 'two.json',
                   'stocked.txt', stocked=day_of((14, by_hand.FIRST), rows=('3-1-L A 1 1 0',)))
        self.judge('stock.csv is no layout file', '--layout', 'stock.csv', 'monday.txt')

    def test_days_of_one_layout_are_never_told_apart(self):
        """Random layouts, and walks into some of their aisles, from the front and through to the back."""
        draw = random.Random(1)
        for _ in range(10):
            aisles, slots = draw.randint(1, 7), draw.randint(1, 9)
            layout = warehouse.Layout(aisles, slots, draw.randint(1, 9), draw.randint(1, 9),
                                      tuple(draw.randint(1, 9) for _ in range(aisles - 1)), draw.randint(1, aisles),
                                      False)
            known = same_layout.Told()
            for day in range(5):
                walks = [self.walk(layout, draw) for _ in range(6)]
                known.test('day %d' % day, self.day_of_walks(layout, walks))
            with self.assertRaisesRegex(same_layout.Trouble, 'changed is of another layout than the days before it'):
                known.test('changed', self.day_of_walks(layout, walks[:1], 1))

    @staticmethod
    def day_of_walks(layout, walks, more=0):
        """A day of some walks in a layout, each so much longer than it is there."""
        batches = [(tours.walked(layout, walk) + more, 'tour ' + ' '.join('%d-%d' % point for point in walk))
                   for walk in walks]
        lines = day_of(*batches, rows=('%d-%d-L A 1 1 0' % (layout.aisles, layout.slots),))
        return output.day_of('\n'.join(lines).encode(), 'day')

    @staticmethod
    def walk(layout, draw):
        """A walk from the depot into an aisle and back, through it or up to a slot."""
        aisle, up = draw.randint(1, layout.aisles), draw.randint(1, layout.slots)
        is_through = draw.random() < 0.5 and layout.aisles > 1
        step = 1 if aisle >= layout.depot else -1
        across = [(each, 0) for each in range(layout.depot, aisle + step, step)]
        if not is_through:
            into = [(aisle, slot) for slot in range(1, up + 1)]
            return across + into + into[-2::-1] + across[::-1]
        other = aisle - 1 if aisle == layout.aisles else aisle + 1
        into = [(aisle, slot) for slot in range(1, layout.slots + 2)]
        out = [(other, slot) for slot in range(layout.slots + 1, -1, -1)]
        home = 1 if layout.depot >= other else -1
        return across + into + out + [(each, 0) for each in range(other + home, layout.depot + home, home)
                                      if other != layout.depot]

    def test_equations(self):
        for equations, due in (([{'x': 1, 'y': 1, 'whole': -3}, {'x': 1, 'y': 2, 'whole': -5}, {'x': 1, 'whole': -1}],
                                [True, True, True]),
                               ([{'x': 1, 'y': 1, 'whole': -3}, {'x': 1, 'y': 2, 'whole': -5}, {'x': 2, 'whole': -1}],
                                [True, True, False]),
                               ([{'x': 1, 'y': 1, 'z': 1, 'whole': -3}, {'y': 1, 'z': 1, 'whole': -1},
                                 {'x': 3, 'whole': -6}, {'x': 3, 'whole': -7}], [True, True, True, False]),
                               ([{}, {'whole': -1}], [True, False])):
            known = same_layout.Equations()
            prime = same_layout.PRIME
            self.assertEqual(due, [known.add({name: factor % prime for name, factor in each.items()})
                                   for each in equations])


class Hours(unittest.TestCase):
    def test_times_in_names(self):
        for names, due in ((['MON-08.00', 'MON-17:30', '2026.12.01-09h15', 'W08.45'], [8, 17, 9, 8]),
                           (['2026.12.01', '24.00', 'MON-8.00', '8:60', '108.00', '12.345', 'NOON'], []),
                           (['W-0930', 'W1745', '0005'], [9, 17, 0]), (['W-0001', 'W-0061'], []),
                           (['MON-08.00', 'W-9999'], [8]), (['W-10930', 'W-930'], []), ([], [])):
            found = wave_times.hours_of(names)
            self.assertEqual(due, [found[name] for name in names if name in found], names)


class Page(unittest.TestCase):
    @classmethod
    def setUpClass(cls):
        cls.page = report('--per-metre', '4', '--page', '-', 'monday.txt', 'tuesday.txt').output

    def drawings(self, page):
        found = [ElementTree.fromstring(each) for each in re.findall(r'<svg.*?</svg>', page, re.DOTALL)]
        return {each.attrib['aria-label']: each for each in found}

    def test_it_needs_no_other_file_no_network_and_no_script(self):
        network = r'(?:src|href)="(?!#)|url\(|@import|fetch|XMLHttp|https?:(?!//www\.w3\.org/2000/svg")|<script'
        self.assertIsNone(re.search(network, self.page))

    def test_it_is_well_formed(self):
        text = re.sub(r'<!DOCTYPE html>|<meta[^>]*>|<style>.*?</style>', '', self.page, flags=re.DOTALL)
        ElementTree.fromstring(text)

    def test_the_figures_are_there(self):
        for text in ('Report of 2 days', 'Lengths in metres, of 4 units', 'tuesday: carts were printed without',
                     '<div>walk in metres<b>21.5</b></div>', '<div>metres a line<b>4.3</b></div>',  # 86 and 17.2 of 4
                     '<div>mean gap, percent<b>18.8</b></div>', '<div>carts full by units, percent<b>50.0</b></div>',
                     '<td class="name"><b>sum</b></td>', '<td class="right"><b>21.5</b></td>',
                     '<td class="name">1-4-L</td>'):
            self.assertIn(text, self.page)

    def test_bars_are_as_long_as_their_values(self):
        drawings = self.drawings(self.page)
        self.assertEqual({'Walk by day, in metres', 'Walk a line by day, in metres', 'Walk by hour',
                          'Walk of the tours and by usual rules, in metres',
                          'Units that would have covered short articles', 'Units that were missing'}, set(drawings))
        for name, wides, texts in (
                ('Walk by day, in metres', ['100.00%', '79.17%'], ['monday', '12.0', 'tuesday', '9.5']),  # 38 of 48
                ('Walk of the tours and by usual rules, in metres', ['80.00%', '80.00%', '100.00%', '80.00%'],
                 ['the tours', '12.0', 's-shape', '12.0', 'return', '15.0', 'largest-gap', '12.0']),  # 48 of 60
                ('Units that were missing', ['50.00%', '100.00%'],
                 ['1-4-L A', '1 refilled, 0 lost', '2-4-L B', '0 refilled, 2 lost']),
                ('Units that would have covered short articles', ['100.00%', '33.33%'], ['B', '6', 'C', '2'])):
            space = '{http://www.w3.org/2000/svg}'
            self.assertEqual(wides, [each.attrib['width'] for each in drawings[name].iter(space + 'rect')], name)
            self.assertEqual(texts, [each.text for each in drawings[name].iter(space + 'text')], name)

    def test_one_day_has_the_loads_of_its_pickers(self):
        page = report('--page', '-', 'monday.txt').output
        rects = list(self.drawings(page)['Load of each picker'].iter('{http://www.w3.org/2000/svg}rect'))
        self.assertEqual(['100.00%', '92.31%'], [each.attrib['width'] for each in rects])  # 26, and 24 of 26
        self.assertIn('Report of monday', page)
        self.assertNotIn('Walk by day', page)

    def test_many_days_are_columns(self):
        days = {'d%02d' % day: [line.replace('TUE', 'D%02d' % day) for line in TUESDAY] for day in range(12)}
        page = report('--page', '-', 'monday.txt', *(day + '.txt' for day in days), **days).output
        columns = list(self.drawings(page)['Walk by day, in own units'].iter('{http://www.w3.org/2000/svg}rect'))
        self.assertEqual(['100.00'] + ['79.17'] * 12, [each.attrib['height'] for each in columns])
        self.assertEqual('d11: 38', columns[12][0].text)
        self.assertIn('<span>monday</span><span>greatest: monday, 48</span><span>d11</span>', page)

    def test_texts_are_escaped_and_long_ones_cut(self):
        folder = runs.put(folder_with(), {'names.csv': 'name,text\nB,<b>&%s\n' % ('x' * 40)})
        page = report('--names', folder / 'names.csv', '--page', '-', 'monday.txt').output
        self.assertIn('&lt;b&gt;&amp;xxx', page)
        texts = [each.text for each in
                 self.drawings(page)['Units that would have covered short articles'].iter(
                     '{http://www.w3.org/2000/svg}text')]
        self.assertEqual('<b>&' + 'x' * 25 + '\u2026', texts[0])
        self.assertEqual(report_charts.LONGEST_LABEL, len(texts[0]))


class Ends(unittest.TestCase):
    def test_what_can_not_be_reported(self):
        folder = folder_with(cut=MONDAY[:-2])
        for words, status, why in (
                (['stock.csv'], 2, 'stock.csv is no output of `waveplan plan`'), (['cut.txt'], 2, 'cut.txt is cut off'),
                (['monday.txt', 'nowhere.txt'], 2, 'nowhere.txt cannot be read: No such file'),
                (['monday.txt', '.'], 2, '. cannot be read: Is a directory'),
                (['monday.txt', '--per-metre', '0'], 2, '--per-metre 0 is no number of units above 0'),
                (['monday.txt', '--per-metre', 'cm'], 2, '--per-metre cm is no number'),
                (['monday.txt', '--csv', '-', '--json', '-'], 2, 'only one of --csv, --json and --page can go to'),
                (['monday.txt', '--names', 'nowhere.csv'], 2, 'there is no file of names'),
                (['monday.txt', '--tables', 'monday.txt'], 4, 'monday.txt cannot be written: File exists'),
                (['monday.txt', '--tables', '/dev/null/x'], 4, '/dev/null/x cannot be written: Not a directory'),
                (['monday.txt', '--json', 'nowhere/x.json'], 4, 'nowhere/x.json cannot be written: No such file'),
                (['monday.txt', '--page', '.'], 4, 'cannot be written: it is no plain file'),
                (['monday.txt', '--csv', '/dev/full'], 4, '/dev/full cannot be written: it is no plain file')):
            done = runs.script('report', *words, folder=folder)
            self.assertEqual((status, '', 1), (done.status, done.output, done.errors.count('\n')), words)
            self.assertIn(why, done.errors)

    def test_without_a_day_its_use_is_told(self):
        done = report('--json', '-')
        self.assertEqual((2, ''), (done.status, done.output))
        self.assertIn('usage: tools/report [options] DAY [DAY ..]', done.errors)

    def test_files_and_text_are_written_together(self):
        done = report('--csv', 'out.csv', '--json', 'out.json', '--page', 'out.html', 'monday.txt')
        self.assertTrue(done.output.startswith('1 day, '))
        folder = folder_with()
        self.assertEqual(['day', 'sum', 'mean'], [row['row'] for row in records((folder / 'out.csv').read_text())])
        self.assertEqual(told('monday.txt'), json.loads((folder / 'out.json').read_text()))
        self.assertEqual(report('--page', '-', 'monday.txt').output, (folder / 'out.html').read_text())

    def test_a_day_from_standard_input(self):
        done = runs.script('report', '--csv', '-', '-', given='\n'.join(MONDAY).encode())
        self.assertEqual('standard input', records(done.output)[0]['day'])

    def test_odd_file_names(self):
        folder, name = folder_with(), b'od\xff\nd.txt'
        Path(os.fsdecode(bytes(folder) + b'/' + name)).write_text('\n'.join(MONDAY))
        done = runs.script('report', os.fsdecode(name), '--page', 'odd.html', folder=folder)
        self.assertEqual((0, ''), (done.status, done.errors))
        self.assertIn('\nod\ufffd?d      1 ', done.output)

    def test_how_far_it_is_stands_on_a_terminal(self):
        terminal = io.StringIO()
        terminal.isatty = lambda: True
        paths = [str(folder_with() / name) for name in ('monday.txt', 'tuesday.txt')]
        with mock.patch('sys.stderr', terminal), mock.patch.dict(os.environ):
            os.environ.pop('WAVEPLAN_QUIET', None)
            many_days.read_days(paths, None, None)
            self.assertEqual('0 of 2 days\r1 of 2 days\r           \r', terminal.getvalue())
            terminal.truncate(0)
            many_days.read_days(paths[:1], None, None)
            os.environ['WAVEPLAN_QUIET'] = '1'
            many_days.read_days(paths, None, None)
            self.assertEqual('', terminal.getvalue())


if __name__ == '__main__':
    unittest.main()
