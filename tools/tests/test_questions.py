"""Tests of what-if and slotting over the program itself: what it plans is what was worked out by hand."""

import json
import re
import tempfile
import unittest
from pathlib import Path

import by_hand
import runs

THREE = {
    'layout.json': by_hand.LAYOUT, 'stock.csv': 'location,article,on_hand\n1-4-L,A,5\n2-4-L,B,5\n3-1-L,C,5\n',
    'orders.csv': 'order,article,quantity\nO1,A,1\nO2,B,1\nO3,C,1\n',
    'desks.csv': 'desk,command,arguments\n1,submit,W1,O1,O2,O3\n1,release,W1\n',
}


def folder_of(files):
    return runs.put(tempfile.mkdtemp(dir=runs.shelf().name), files)


def answer(name, folder, *words):
    """What a subcommand says of the day of a folder with carts of two orders, as an object."""
    done = runs.script(name, '--program', runs.PROGRAM, '--keep', Path(runs.shelf().name) / 'kept', '--json', *words,
                       'plan', *runs.options(folder), '--capacity', '2')
    assert (done.status, done.errors) == (0, ''), done.errors
    return json.loads(done.output)


class WhatIf(unittest.TestCase):
    """Three orders at (1,4), (2,4) and (3,1), whose walks by capacity are worked out in test_what_if.py."""

    @classmethod
    def setUpClass(cls):
        cls.folder = folder_of(THREE)

    def walks(self, *words):
        return [row['walk'] for row in answer('what-if', self.folder, *words)['choices']]

    def test_three_capacities(self):
        found = answer('what-if', self.folder, '--capacity', '1..3')
        self.assertEqual((48, [60, 38]), (found['today']['walk'], [row['walk'] for row in found['choices']]))
        self.assertTrue(all(row['proven'] == 1 and row['gap_percent'] == 0 for row in found['choices']))

    def test_a_spacing(self):
        # With 10 from aisle to aisle O1 and O2 walk 8 + 10 + 8 + 10 = 36, and O3 2 + 40. But O1 alone walks 14, and O2
        # with O3 14 + 2 + 40 = 56: 70.
        self.assertEqual([70], self.walks('--spacing', '10'))

    def test_a_depot_elsewhere(self):
        # In front of aisle 3: O1 and O2 walk 5 + 8 + 5 + 8 + 10 = 36, and O3 2. At the back of aisle 1: O1 walks 2, O2
        # with O3 in and out of aisle 2 for 2, in and out of aisle 3 for 14, and 20 along the back: 36.
        self.assertEqual([38, 38], self.walks('--depot', '3,1@back'))

    def test_waves_of_another_size(self):
        # Alone each order goes on a cart of its own. In waves of two O1 and O2 go together.
        self.assertEqual([60, 48], self.walks('--wave', '1,2'))

    def test_carts_of_so_many_units(self):
        self.assertEqual([60, 48], self.walks('--units', '1,2'))

    def test_a_crew(self):
        # Alone they walk 24, 22 and 14: to two pickers 24 and 22 + 14 are dealt, to three each its own.
        found = answer('what-if', self.folder, '--capacity', '1', '--pickers', '2,3')
        self.assertEqual([36, 24], [row['longest_load'] for row in found['choices']])

    def test_rules(self):
        # O1 and O2 walk 38 by return in place of 26.
        self.assertEqual([48, 60, 48], self.walks('--rules', 's-shape,return,largest-gap'))

    def test_a_budget_that_pays_for_nothing(self):
        row, = answer('what-if', self.folder, '--budget', '0')['choices']
        self.assertEqual((48, 30, 37.5, 0), (row['walk'], row['bound'], row['gap_percent'], row['proven']))

    def test_what_the_program_refuses(self):
        rows = answer('what-if', self.folder, '--depot', '4', '--spacing', '0')['choices']
        self.assertEqual(['refused layout out-of-range spacings'], [row['refused'] for row in rows])


FORTY = {
    'layout.json': '{"version":1,"aisles":2,"slots":4,"pitch":2,"clearance":1,"spacing":19,"depot":1}',
    'stock.csv': 'location,article,on_hand\n1-1-L,A,5\n1-1-R,C,7\n2-1-L,B,5\n',
    'orders.csv': 'order,article,quantity\nO1,A,1\nO1,B,1\n',
    'desks.csv': 'desk,command,arguments\n1,submit,W1,O1\n1,release,W1\n1,receive,2-1-L,B,1\n',
}
TWIN = {
    **FORTY, 'stock.csv': 'location,article,on_hand\n1-1-L,A,5\n1-1-R,C,7\n1-2-L,E,7\n2-4-L,B,5\n2-4-R,D,5\n',
    'orders.csv': 'order,article,quantity\nO1,A,1\nO1,B,1\nO1,D,1\n',
    'desks.csv': 'desk,command,arguments\n1,submit,W1,O1\n1,release,W1\n',
}
# A day that picks A and C, and walks 2; once C has gone to aisle 2, it walks 42.
OTHER = {'orders.csv': 'order,article,quantity\nO9,A,1\nO9,C,1\n',
         'desks.csv': 'desk,command,arguments\n1,submit,W9,O9\n1,release,W9\n'}


class Slotting(unittest.TestCase):
    """The days of test_slotting.py, where their walks are worked out."""

    @classmethod
    def setUpClass(cls):
        cls.forty, cls.other = folder_of(FORTY), folder_of(OTHER)

    def ask(self, *words, files=FORTY, status=0):
        """What is said of a day as it is printed, or why it isn't."""
        folder = folder_of(files)
        done = runs.script('slotting', '--program', runs.PROGRAM, '--keep', Path(runs.shelf().name) / 'kept', *words,
                           'plan', *runs.options(folder), '--capacity', '2')
        self.assertEqual(status, done.status, done.errors)
        return done.errors if status else done.output

    def test_an_exchange_of_two_articles_saves_40(self):
        out = self.forty / 'after.csv'
        found = answer('slotting', self.forty, '--stock-out', out)
        self.assertEqual((42, 2), (found['walk'], found['walk_after']))
        one, = found['exchanges']
        self.assertEqual((42, 2, 40, True), tuple(one[name] for name in ('before', 'after', 'saves', 'is_taken')))
        self.assertEqual([[{'location': '2-1-L', 'article': 'B', 'picks': 1, 'adds': 40},
                           {'location': '1-1-R', 'article': 'C', 'picks': 0, 'adds': 0}]], one['rows'])
        self.assertEqual('location,article,on_hand\n1-1-L,A,5\n2-1-L,C,7\n1-1-R,B,5\n', out.read_text())

    def test_the_stock_file_after_it_is_planned_with_that_walk(self):
        out = self.forty / 'again.csv'
        answer('slotting', self.forty, '--stock-out', out)
        folder = folder_of({**FORTY, 'stock.csv': out.read_text(),
                            'desks.csv': FORTY['desks.csv'].replace('receive,2-1-L', 'receive,1-1-R')})
        planned = runs.planned(folder, '--capacity', '2').output
        self.assertIn(' cost 2 ', planned)
        self.assertIn('2 1 receive 1-1-R B 1 -> received', planned)

    def test_two_exchanges_at_once_save_48(self):
        found = answer('slotting', folder_of(TWIN))
        one, = found['exchanges']
        self.assertEqual((54, 6, 48, 2), (one['before'], one['after'], one['saves'], len(one['rows'])))
        self.assertEqual({'B', 'C', 'D', 'E'}, {row['article'] for pair in one['rows'] for row in pair})

    def test_it_pays_within_so_many_days(self):
        for cost, days, due in (('39', '1', (1, True)), ('40', '1', (2, False)), ('40', '2', (2, True)),
                                ('80', '2', (3, False))):
            one, = answer('slotting', self.forty, '--move-cost', cost, '--days', days)['exchanges']
            self.assertEqual(due, (one['pays_after_days'], one['is_taken']))
        one, = answer('slotting', folder_of(TWIN), '--move-cost', '24')['exchanges']  # two cost 48, which is no less
        self.assertEqual((2, False), (one['pays_after_days'], one['is_taken']))

    def test_other_days_judge_it(self):
        found = answer('slotting', self.forty, '--judge', self.other, self.forty)
        self.assertEqual([{'day': str(self.other), 'walks': [2, 42]}, {'day': str(self.forty), 'walks': [42, 2]}],
                         found['judged'])
        told = self.ask('--judge', self.other)
        self.assertIn('judged by %s: walk 2 before, 42 after (+2000.0%%)\n' % self.other, told)

    def test_the_table_as_it_is_printed(self):
        self.assertEqual(['today: walk 54; 1 wave, 1 of them proven, gap 0.0%',
                          '   exchange                                     before  after  saves  pays after',
                          '1  2-4-L B (1 pick) with 1-1-R C (0 picks)          54      6     48  1 day',
                          '   and 2-4-R D (1 pick) with 1-2-L E (0 picks)'], self.ask(files=TWIN).splitlines()[:-1])
        self.assertEqual(['today: walk 42; 1 wave, 1 of them proven, gap 0.0%',
                          '   exchange                                 before  after  saves  pays after',
                          '1  2-1-L B (1 pick) with 1-1-R C (0 picks)      42      2     40  2 days, not taken',
                          'after the 0 that pay: walk 42 before, 42 after (+0.0%); 3 were tried'],
                         self.ask('--move-cost', '50').splitlines())

    def test_no_more_are_tried_than_it_says(self):
        self.assertEqual([1, 3], [answer('slotting', self.forty, '--tries', tries)['tried'] for tries in ('1', '9')])

    def test_the_page_has_no_other_file(self):
        page = self.ask('--html', '--judge', self.other)
        self.assertIn('B 2-1-L to 1-1-R\nC 1-1-R to 2-1-L', re.sub('<.*?>', '', page.replace('<br>', '\n')))
        self.assertIn('walks 2 in place of 42, \u221295.2\u202f%', page)
        self.assertIn('<td class="right">42, +2000.0\u202f%</td>', page)
        network = r'(?:src|href)="(?!#)|url\(|@import|fetch|XMLHttp|https?:(?!//www\.w3\.org/2000/svg")'
        self.assertIsNone(re.search(network, page))

    def test_what_can_not_be_answered_is_told(self):
        heading = 'location,article,on_hand\n'
        for files, words, why in (
                ({'stock.csv': heading + '1-1-L,A,5\n', 'orders.csv': 'order,article,quantity\nO1,A,1\n'}, (),
                 'fewer than two rows'),
                ({'desks.csv': 'desk,command,arguments\n'}, (), 'no wave of the day walks'),
                ({'stock.csv': heading + '9-1-L,A,5\n'}, (), 'refused stock row 2 unknown-location'),
                ({'orders.csv': 'order,article,quantity\nO1,Z,1\n'}, (), 'refused orders row 2 unknown-article'),
                ({}, ('--judge', '/nowhere'), '/nowhere/orders.csv cannot be read'),
                ({}, ('--judge', folder_of({**OTHER, 'orders.csv': 'order,article,quantity\nO9,Z,1\n'})),
                 'is refused: refused orders row 2 unknown-article'),
                ({}, ('--tries', '0'), 'from 1 to 10000')):
            told = self.ask(*words, files={**FORTY, **files}, status=2)
            self.assertEqual(1, told.count('\n'))
            self.assertIn(why, told)
        self.assertIn('cannot be written', self.ask('--stock-out', '/nowhere/x', status=4))


if __name__ == '__main__':
    unittest.main()
