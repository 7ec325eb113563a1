"""Tests of what-if over a small program that prints days which are worked out by hand.

The day has three orders at (1,4), (2,4) and (3,1) of a layout of three aisles, four slots, pitch 2, clearance 1 and
spacing 5, with the depot in front of aisle 1. An aisle is 8 long, and its slot 4 lies 7 from the front.

- Carts of one order walk 14, 14 + 10 and 2 + 20: 60.
- Of two orders, O1 and O2 go together: up aisle 1, across, down aisle 2 and back, 8 + 5 + 8 + 5 = 26, and O3 22: 48.
  With O3, O1 would walk 36 and O2 36, and the sums are 60 and 50.
- All three go up aisle 1, across, down aisle 2, and on to aisle 3: 8 + 5 + 8 + 5, in and out 2, and back 10: 38. So the
  longest walk is the only one; returning out of each aisle it is 14 + 14 + 2 + 20 = 50.
"""

import json
import os
import re
import signal
import subprocess
import tempfile
import unittest
from pathlib import Path

import by_hand
import runs
from floor import choices, entry, recut, warehouse
from floor.given_day import Day
from floor.output import day_of
from opinion.words import GIVEN
from test_planning import may_be_interrupted, until

ROUND = 'tour 1-0 1-1 1-2 1-3 1-4 1-5 2-5 2-4 2-3 2-2 2-1 2-0 3-0 3-1 3-0 2-0 1-0'
TRIPLE = [
    *by_hand.PAIR[:4], 'wave W1 entry 1 orders 3 capacity 3 cost 38 bound 38 proven',
    'batch 1 length 38 orders O1 O2 O3', ROUND, 'pick 1-4-L A 1 O1', 'pick 2-4-L B 1 O2', 'pick 3-1-L C 1 O3',
    'rules s-shape 38 0 return 50 12 largest-gap 38 0',
    'certificate {"capacity":3,"nodes":[{"kind":"kept"}],"orders":[[[1,4]],[[2,4]],[[3,1]]],"version":1}', 'end wave',
    *by_hand.PAIR[by_hand.PAIR.index('refills'):by_hand.PAIR.index('end refills') + 1], *by_hand.CLOSING]
SINGLE = [line for line in by_hand.ALONE if ' W2 ' not in line]
del SINGLE[SINGLE.index('end wave') + 1:SINGLE.index('refills')]
SINGLE[SINGLE.index('end refills') + 1:SINGLE.index('stock')] = []
NOTHING = by_hand.plain(by_hand.NOBODY)
NOTHING[1:1] = ['0 1 submit W1 O1 O2 O3 -> refused over-cart O1 1', '1 1 release W1 -> refused unknown-wave']

# It prints the day of its capacity and its pickers, refuses a capacity of 8, and tells each call. From a capacity of 4
# on it waits for as long as the file `wait` is there.
PROGRAM = '''#!/bin/sh
echo "$*" >> %(folder)s/calls
for word; do
    case $last in
        --capacity) day=$word ;;
        --pickers | --units) day=$day-$word ;;
    esac
    last=$word
done
[ $day = 8 ] && echo refused layout not-json && exit 2
case $day in [4-6]) while [ -e %(folder)s/wait ]; do sleep 0.02; done ;; esac
cat %(folder)s/day-$day
'''
DAYS = {'1': SINGLE, '2': by_hand.plain(by_hand.PAIR), '3': TRIPLE, '2-2': by_hand.PAIR, '2-1': NOTHING}
FILES = {'layout.json': by_hand.LAYOUT, 'stock.csv': 'location,article,on_hand\n', 'orders.csv': '', 'desks.csv': ''}
PLAN = ['plan', *'--layout layout.json --stock stock.csv --orders orders.csv --desks desks.csv'.split()]


class WhatIf(unittest.TestCase):
    def setUp(self):
        self.folder = Path(tempfile.mkdtemp(dir=runs.shelf().name))
        runs.put(self.folder, {**FILES, 'program': PROGRAM % {'folder': self.folder},
                               **{'day-' + name: '\n'.join(lines) for name, lines in DAYS.items()}})

    def ask(self, *words, capacity='2', plan=PLAN):
        return runs.script('what-if', '--program', 'program', '--keep', 'kept', *words, *plan, '--capacity', capacity,
                           folder=self.folder)

    def object(self, *words, **how):
        done = self.ask('--json', *words, **how)
        self.assertEqual((0, ''), (done.status, done.errors))
        return json.loads(done.output)

    def calls(self):
        path = self.folder / 'calls'
        return path.read_text().splitlines() if path.exists() else []

    def test_three_capacities_with_known_optima(self):
        found = self.object('--capacity', '1..3')
        self.assertEqual('waveplan what-if 1', found['format'])
        self.assertEqual(({'capacity': 2}, 48, 0, 3, 2), tuple(found['today'][name] for name in (
            'choice', 'walk', 'change_percent', 'lines', 'carts')))
        self.assertEqual([({'capacity': 1}, 60, 25.0, 3, 1, 1), ({'capacity': 3}, 38, -100 * 10 / 48, 1, 1, 1)],
                         [tuple(row[name] for name in ('choice', 'walk', 'change_percent', 'carts', 'proven', 'waves'))
                          for row in found['choices']])
        self.assertEqual(3, len(self.calls()))

    def test_the_gap_is_that_of_the_bound_below_the_cost(self):
        today = self.object('--capacity', '3')['today']
        self.assertEqual((30, 37.5, 0, 1), tuple(today[name] for name in ('bound', 'gap_percent', 'proven', 'waves')))

    def test_the_table_as_it_is_printed(self):
        done = self.ask('--capacity', '1,3,8')
        lines = [re.sub(r'\d\.\d\d$', 'S', line) for line in done.output.splitlines()]
        self.assertEqual([
            '                   walk  change  walk a line  lines  carts  longest load  proven    gap  seconds',
            'today: capacity 2    48       -         16.0      3      2             -  0 of 1  37.5%     S',
            'capacity 1           60  +25.0%         20.0      3      3             -  1 of 1   0.0%     S',
            'capacity 3           38  -20.8%         12.7      3      1             -  1 of 1   0.0%     S',
            'capacity 8: refused layout not-json'], lines)

    def test_lengths_in_metres(self):
        for words, due in ((['--unit', 'dm'], 1.6), (['--per-metre', '100'], 0.16),
                           (['--unit', 'feet', '--per-metre', '3'], 16 / 3)):
            self.assertAlmostEqual(due, self.object('--capacity', '3', *words)['today']['metres_a_line'])
        self.assertEqual(16, self.object('--capacity', '3', '--unit', 'feet')['today']['walk_a_line'])

    def test_a_crew_and_what_rules_would_walk(self):
        # Past the first cart return walks 38 in place of 26: 60 in all, and its picker's load is 38.
        found = self.object('--rules', '--pickers', '2')
        rows = {row['choice']['rules']: row for row in found['choices']}
        self.assertEqual({'tour': (48, 26), 's-shape': (48, 26), 'return': (60, 38), 'largest-gap': (48, 26)},
                         {name: (row['walk'], row['longest_load']) for name, row in rows.items()})
        self.assertEqual((None, None, None), tuple(rows['return'][name] for name in ('proven', 'bound', 'gap_percent')))
        self.assertTrue(all('--rules 1' in call for call in self.calls()))
        self.assertEqual(2, len(self.calls()))

    def test_other_work_than_today_is_told_and_not_compared(self):
        row, = self.object('--units', '1')['choices']
        self.assertEqual((0, None, 0, None, None), tuple(row[name] for name in (
            'walk', 'change_percent', 'units', 'walk_a_line', 'gap_percent')))
        self.assertIn('0 of 3 units, refused submit W1: over-cart O1 1\n', self.ask('--units', '1').output)

    def test_what_is_as_today_is_left_out(self):
        self.assertEqual([], self.object('--capacity', '2', '--depot', '1', '--spacing', '5')['choices'])
        self.assertEqual(1, len(self.calls()))

    def test_other_layouts_are_written(self):
        layout = warehouse.layout_of(by_hand.LAYOUT.encode(), '')
        for choice, due in (({'depot': (3, 'back')}, (3, 4, 2, 1, (5, 5), 3, True)),
                            ({'spacing': 7}, (3, 4, 2, 1, (7, 7), 1, False)),
                            ({'depot': (2, 'front'), 'spacing': 9}, (3, 4, 2, 1, (9, 9), 2, False))):
            data = choices.layout_file(choices.with_layout(layout, choice))
            self.assertEqual(due, tuple(warehouse.layout_of(data, '')))

    def test_a_call_goes_on_where_it_stopped(self):
        self.ask('--capacity', '1')
        self.assertEqual(['1', '2'], sorted(call[-1] for call in self.calls()))
        self.ask('--capacity', '1..3')
        self.assertEqual(['1', '2', '3'], sorted(call[-1] for call in self.calls()))

    def test_an_interrupted_call_goes_on(self):
        words = [str(runs.TOOLS / 'wave'), 'what-if', '--program', 'program', '--keep', 'kept', '--jobs', '2',
                 '--capacity', '1..6', *PLAN, '--capacity', '2']
        runs.put(self.folder, {'wait': '', **{'day-%d' % capacity: '\n'.join(SINGLE) for capacity in (4, 5, 6)}})
        call = subprocess.Popen(words, cwd=self.folder, stdout=subprocess.PIPE, stderr=subprocess.PIPE,
                                preexec_fn=may_be_interrupted)
        until(lambda: len(self.calls()) == 5 and len(os.listdir(self.folder / 'kept')) == 3)
        call.send_signal(signal.SIGINT)
        self.assertEqual((130, b'', b'what-if: interrupted\n'), (call.wait(20), *call.communicate()))
        (self.folder / 'wait').unlink()
        done = subprocess.run(words, cwd=self.folder, stdout=subprocess.PIPE, timeout=20)
        self.assertEqual((0, 7), (done.returncode, done.stdout.count(b'\n')))
        self.assertEqual(5 + 3, len(self.calls()))

    def test_the_page_has_a_bar_for_each_the_least_first(self):
        page = self.ask('--capacity', '1..3,8', '--html', '--unit', 'cm').output
        bars = page.split('<h2>Walk, the least first</h2>')[1].split('</table>')[0]
        rows = [[re.sub('<[^>]*>', '', cell) for cell in re.findall('<td.*?</td>', row)]
                for row in re.findall('<tr>(.*?)</tr>', bars)[1:]]
        self.assertEqual([['capacity 3', '38', '\u221220.8\u202f%'], ['today: capacity 2', '48', '&ndash;'],
                          ['capacity 1', '60', '+25.0\u202f%']], [row[:3] for row in rows])
        self.assertEqual(['63.3', '80.0', '100.0'], re.findall(r'width:([\d.]+)%"></div>', bars))  # 38 and 48 of 60
        self.assertIn('<td>capacity 8</td><td>refused layout not-json</td>', page)
        network = r'(?:src|href)="(?!#)|url\(|@import|fetch|XMLHttp|https?:'
        self.assertIsNone(re.search(network, page))

    def test_bad_words_end_with_one_line(self):
        for words, why in ((['--capacity', '6..2'], 'the range goes backwards'),
                           (['--capacity', '2..x'], 'a whole number'), (['--capacity', ''], 'a whole number'),
                           (['--capacity', '1..9999999999'], 'more than 1000'),
                           (['--budget', '1..600', '--spacing', '1,2'], '1200 combinations, and at most 1000'),
                           (['--depot', '1@side'], 'an aisle, as 10'), (['--rules', 's'], 'the rules are'),
                           ([], 'nothing is chosen'), (['--units', '9' * 19], 'a whole number'),
                           (['--budget', '1', '--nodes', '1'], 'in the place of --budget'),
                           (['--per-metre', '0', '--capacity', '2'], 'from 1 to 1000000'),
                           (['--capacity', '2', 'x'], 'x is no option')):
            done = self.ask(*words)
            self.assertEqual((2, '', 1), (done.status, done.output, done.errors.count('\n')), words)
            self.assertIn(why, done.errors)

    def test_a_day_that_is_not_there_or_is_refused(self):
        for plan, capacity, why in ((['plan', '--layout', 'nowhere', *PLAN[3:]], '2', 'nowhere cannot be read'),
                                    (PLAN, '8', 'the day itself is refused: refused layout not-json'),
                                    (PLAN, '9', '--capacity is a whole number from 1 to 8, not 9'),
                                    (PLAN[:-2], '2', '--desks is left out'),
                                    ([*PLAN, '--nothing', '1'], '2', 'no option of a plan'),
                                    ([*PLAN, '--store', '1'], '2', 'a day with a store'),
                                    ([], '3', 'the day is missing')):
            done = self.ask('--capacity', '3', plan=plan, capacity=capacity)
            self.assertEqual((2, '', 1), (done.status, done.output, done.errors.count('\n')), plan)
            self.assertIn(why, done.errors)

    def test_a_folder_that_can_not_be_written(self):
        done = runs.script('what-if', '--program', 'program', '--keep', 'orders.csv', '--capacity', '3', *PLAN,
                           '--capacity', '2', folder=self.folder)
        self.assertEqual((4, ''), (done.status, done.output))
        self.assertIn('orders.csv cannot be written', done.errors)

    def test_the_launcher_may_stand_before_the_plan(self):
        self.assertEqual(0, self.ask('--capacity', '3', './waveplan').status)


class Lists(unittest.TestCase):
    def test_lists_and_ranges(self):
        for name, text, due in (('capacity', '2..4', [2, 3, 4]), ('pickers', '3,4,3,5', [3, 4, 5]),
                                ('units', '30,none,7..8', [30, None, 7, 8]), ('budget', '0', [0]),
                                ('depot', '1,10@back', [(1, 'front'), (10, 'back')]),
                                ('depot', '1..2@back', [(1, 'back'), (2, 'back')]),
                                ('rules', 'return,all', ['return', 'tour', 's-shape', 'largest-gap'])):
            self.assertEqual(due, choices.values_of(name, text))

    def test_nodes_and_a_budget_stand_in_the_place_of_each_other(self):
        numbers = {**GIVEN, 'capacity': 3}
        for had, other, due in (({'budget': 5}, {'nodes': 2}, ['--nodes', '2']),
                                ({'nodes': 2}, {'budget': 5}, ['--budget', '5']),
                                ({'nodes': 2}, {'nodes': 3}, ['--nodes', '3']),
                                ({'budget': 5}, {'units': 9}, ['--budget', '5', '--units', '9'])):
            words = Day({}, {**numbers, **had}).with_numbers(**other).run().words
            self.assertEqual(['plan', '--capacity', '3', *due], words)

    def test_all_combinations(self):
        lists = {'depot': [(1, 'front')], 'capacity': [2, 3], 'pickers': [4, 5]}
        self.assertEqual([(2, 4), (2, 5), (3, 4), (3, 5)],
                         [(each['capacity'], each['pickers']) for each in choices.combined(lists)])


class Recut(unittest.TestCase):
    # W1 and W3 of this day went out, W2 was cancelled and its O3 went out in W3 later, and W4 never went out. What was
    # received comes first.
    def test_orders_go_out_in_waves_of_a_size(self):
        day = day_of('\n'.join(by_hand.MISSING).encode(), '')
        for size, due in ((2, ['submit,W1,O1,O2', 'release,W1', 'submit,W2,O3', 'release,W2']),
                          (64, ['submit,W1,O1,O2,O3', 'release,W1'])):
            self.assertEqual(['desk,command,arguments', '1,receive,1-2-L,B,6', *('1,' + line for line in due)],
                             recut.recut(day, size).decode().splitlines())


class Help(unittest.TestCase):
    def test_it_tells_every_choice(self):
        told = entry.module_of('what-if').__doc__
        for name in choices.NAMES:
            self.assertIn('  --%s ' % name, told)


if __name__ == '__main__':
    unittest.main()
