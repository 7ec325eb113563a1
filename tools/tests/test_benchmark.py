"""Tests of the benchmark: instances drawn from seeds, plain files, and the figures of runs of a program that prints
outputs that were written by hand."""

import json
import re
import tempfile
import unittest
import xml.etree.ElementTree as ElementTree
from pathlib import Path

import runs
from floor import benchmark_rows, benchmark_runs, instance_classes, instances, measures, plain_instances, word_lists
from floor.benchmark_rows import Group, Row, Way
from floor.instances import Instance, Order
from floor.measures import Result, Spread
from floor.planning import Ended
from opinion.layouts import Layout

PLAIN = '''instance three-orders
aisles 3
slots 4
pitch 2
clearance 1
spacings 5 5
depot 1 front
capacity 2
units 5
orders 3
order O1 1-4-L 1
order O2 2-4-L 1 3-1-R 2
order O3 3-1-L 1
end
'''
BACK = '''instance back
aisles 1
slots 200
pitch 10000
clearance 1
spacings
depot 1 back
capacity 8
units none
orders 1
order O1 1-200-R 100000 1-200-R 1
end
'''

# Two waves as a program prints them: they cost 48 and 16, their bounds are 40 and 16. The first certificate has a split
# and a leaf with duals of their own, and a leaf that keeps those of the split; the second has a leaf that keeps the
# shares. So two nodes have duals of their own.
TWO_WAVES = '''journal
0 1 submit W1 O1 O2 -> submitted
1 1 release W1 -> released
2 1 submit W2 O3 -> submitted
3 1 release W2 -> released
end journal
wave W1 entry 1 orders 2 capacity 2 cost 48 bound 40 open
batch 1 length 48 orders O1 O2
tour 1-0 1-1 1-0
pick 1-1-L A 1 O1
certificate {"capacity":2,"nodes":[{"duals":[1],"kind":"split"},{"duals":[2],"kind":"leaf"},{"kind":"kept"}]}
end wave
wave W2 entry 3 orders 1 capacity 2 cost 16 bound 16 proven
batch 1 length 16 orders O3
tour 1-0 1-1 1-0
pick 1-1-L A 1 O3
certificate {"capacity":2,"nodes":[{"kind":"kept"}]}
end wave
refills
end refills
stock
end stock
end
'''

# It notes its words, refuses words that the program of today doesn't know, and prints a file of its folder, as its
# layout says: that of the two waves, or one that a test has put there for an end of its own.
PROGRAM = '''#!/bin/sh
echo "$*" >> %(folder)s/calls
case "$*" in *--sharp*|*--nodes*) echo refused words bad-words; exit 1 ;; esac
case $(cat layout) in *'"pitch":9,'*) exit 5 ;; *'"pitch":8,'*) cat %(folder)s/refused; exit 0 ;; esac
cat %(folder)s/waves
'''
REFUSED = '''journal
0 1 submit W1 O1 -> submitted
1 1 release W1 -> refused short A 2 1
end journal
refills
end refills
stock
end stock
end
'''


class Given:
    """Draws that were written down."""

    def __init__(self, *numbers):
        self.numbers = list(numbers)

    def below(self, bound):
        number = self.numbers.pop(0)
        assert 0 <= number < bound, (number, bound)
        return number


def drawn(kind, count, cart, seed, demand='uniform'):
    return plain_instances.text_of(instance_classes.drawn(kind, demand, count, cart, seed))


HENN, GADEMANN = instance_classes.HENN_WAESCHER, instance_classes.GADEMANN_VELDE


class Drawn(unittest.TestCase):
    def test_the_first_order_of_a_seed_by_hand(self):
        """The quotients of the number 1, the first as in docs/FORMATS.md, the others by `bc`: 908834774, 1093944153,
        1392341196, 822192870, 1708211034 and 1074839795. The first leaves 4 by 10: five articles. The others leave
        453, 696, 570, 234 and 395 by 900. Place 453 is 3 behind 5 aisles of 90: aisle 6, slot 2, right. Place 696 is
        66 behind 7 aisles, 570 is 30 behind 6, 234 is 54 behind 2, and 395 is 35 behind 4."""
        self.assertEqual('order O1 6-2-R 1 8-34-L 1 7-16-L 1 3-28-L 1 5-18-R 1',
                         drawn(GADEMANN, 1, (2, None), 1).split('\n')[10])

    def test_the_first_order_by_classes_of_demand_by_hand(self):
        """The first quotient leaves 8 by 21: 13 articles. Then come pairs. 1093944153 leaves 53 by 100, so the article
        is of the second class, aisles 2 to 4, and 1392341196 leaves 66 by 270: aisle 2, slot 34, left. 822192870
        leaves 70, and 1708211034 leaves 144 by 270: aisle 3, and 54 in it. 1074839795 leaves 95, the third class,
        aisles 5 to 10, and 1189567130 leaves 50 by 540: aisle 5. 140486902 leaves 2, the first class, aisle 1, and
        1803298089 leaves 39 by 90: slot 20, right."""
        order = instance_classes.drawn(HENN, 'abc', 1, (6, 30), 1).orders[0]
        self.assertEqual(13, instances.units_of(order))
        self.assertEqual(['2-34-L', '3-28-L', '5-26-L', '1-20-R'], [location for location, _ in order.picks[:4]])

    def test_the_borders_of_the_classes_of_demand(self):
        for percent, place, location in ((0, 0, '1-1-L'), (51, 89, '1-45-R'), (52, 0, '2-1-L'), (87, 269, '4-45-R'),
                                         (88, 0, '5-1-L'), (99, 539, '10-45-R')):
            found = instance_classes.location_of(instance_classes.place_by_class(Given(percent, place)))
            self.assertEqual(location, found, percent)
        self.assertEqual('10-45-R', instance_classes.location_of(instance_classes.uniform_place(Given(899))))

    def test_an_article_that_is_drawn_again_is_wanted_once_more(self):
        order = instance_classes.drawn_order(Given(2, 7, 0, 7), 'O1', (1, 10), 'uniform')
        self.assertEqual(Order('O1', (('1-4-R', 2), ('1-1-L', 1))), order)

    def test_so_many_articles_as_a_class_has(self):
        for kind, draws, least, most in ((HENN, (0, 20), 5, 25), (GADEMANN, (0, 9), 1, 10)):
            counts = [instances.units_of(instance_classes.drawn_order(Given(draw, *range(25)), 'O', kind.articles,
                                                                      'uniform')) for draw in draws]
            self.assertEqual([least, most], counts)

    def test_one_seed_gives_the_same_bytes_and_another_one_others(self):
        one = drawn(HENN, 40, (6, 30), 7, 'abc')
        self.assertEqual(one, drawn(HENN, 40, (6, 30), 7, 'abc'))
        for other in (drawn(HENN, 40, (6, 30), 8, 'abc'), drawn(HENN, 40, (6, 30), 7)):
            self.assertNotEqual(one.split('orders 40\n')[1], other.split('orders 40\n')[1])
        larger = drawn(HENN, 60, (8, 75), 7, 'abc')
        lines = one.split('orders 40\n')[1].splitlines()[:-1]
        self.assertEqual(lines, larger.split('orders 60\n')[1].splitlines()[:40])

    def test_demand_is_shared_as_it_is_said(self):
        """15,000 articles or so: of their shares 52, 36 and 12 percent the deviations are below half a percent."""
        picks = [pick for order in instance_classes.drawn_orders(3, 1000, (5, 25), 'abc') for pick in order.picks]
        aisles = [(int(location.split('-')[0]), quantity) for location, quantity in picks]
        whole = sum(quantity for _, quantity in aisles)
        for first, last, due in ((1, 1, 52), (2, 4, 36), (5, 10, 12)):
            self.assertAlmostEqual(due, 100 * sum(quantity for aisle, quantity in aisles if first <= aisle <= last)
                                   / whole, delta=2)

    def test_the_warehouse_and_the_carts_are_those_of_the_class(self):
        found = instance_classes.drawn(HENN, 'abc', 40, (6, 30), 1)
        self.assertEqual((10, 45, 1, 1, (5,) * 9, 1, False), tuple(found.layout))
        capacities = [instance_classes.capacities_of(HENN, units) for units in HENN.units]
        self.assertEqual([(6,), (8,), (8,), (8,)], capacities)
        self.assertEqual((2, 4, 6, 8), instance_classes.capacities_of(GADEMANN, None))


def instance_of(count):
    """An instance with so many orders at one slot."""
    return Instance('many', Layout(3, 4, 2, 1, (5, 5), 1, False), 2, None,
                    tuple(Order('O%d' % number, (('1-1-L', 1),)) for number in range(1, count + 1)))


def put_plain(folder, text=PLAIN):
    """A folder with a plain file and the program, and the path of the file."""
    files = {'plain.txt': text, 'waves': TWO_WAVES, 'refused': REFUSED, 'program': PROGRAM % {'folder': folder}}
    (runs.put(folder, files) / 'program').chmod(0o755)
    return Path(folder) / 'plain.txt'


class Days(unittest.TestCase):
    def setUp(self):
        self.folder = Path(tempfile.mkdtemp(dir=runs.shelf().name))
        self.plain = put_plain(self.folder)

    def test_waves_have_at_most_64_orders_in_their_order(self):
        for count, sizes in ((1, [1]), (64, [64]), (65, [33, 32]), (100, [50, 50]), (129, [43, 43, 43]),
                             (130, [44, 44, 42])):
            waves = instances.waves_of(instance_of(count))
            self.assertEqual(sizes, [len(wave) for wave in waves])
            self.assertEqual(['O%d' % number for number in range(1, count + 1)],
                             [order.name for wave in waves for order in wave])

    def test_the_files_of_an_instance_by_hand(self):
        done = runs.script('benchmark', '--read', self.plain, '--write', 'made', folder=self.folder)
        self.assertEqual((0, ''), (done.status, done.errors))
        options = ' '.join('--%s made/three-orders/%s' % (name.split('.')[0], name) for name in runs.FILES)
        self.assertEqual('./waveplan plan %s --capacity 2 --units 5\n' % options, done.output)
        self.assertEqual(PLAIN, (self.folder / 'made' / 'three-orders.txt').read_text())
        self.assertEqual({
            'layout.json': '{"aisles":3,"clearance":1,"depot":1,"pitch":2,"slots":4,"spacing":5,"version":1}\n',
            'stock.csv': 'location,article,on_hand\n1-4-L,A1-4-L,1\n2-4-L,A2-4-L,1\n3-1-L,A3-1-L,1\n3-1-R,A3-1-R,2\n',
            'orders.csv': 'order,article,quantity\nO1,A1-4-L,1\nO2,A2-4-L,1\nO2,A3-1-R,2\nO3,A3-1-L,1\n',
            'desks.csv': 'desk,command,arguments\n1,submit,W1,O1,O2,O3\n1,release,W1\n',
        }, {file.name: file.read_text() for file in (self.folder / 'made' / 'three-orders').iterdir()})

    def test_the_files_of_one_aisle_and_a_depot_at_the_back(self):
        made = dict(benchmark_runs.bytes_of(plain_instances.instance_of('x', BACK)))
        self.assertEqual(b'{"aisles":1,"clearance":1,"depot":1,"end":"back","pitch":10000,"slots":200,"spacings":[],'
                         b'"version":2}\n', made['layout'])
        self.assertEqual(b'location,article,on_hand\n1-200-R,A1-200-R,100001\n', made['stock'])

    def test_a_plain_file_that_is_read_and_written_is_the_same(self):
        for text in (PLAIN, BACK, drawn(HENN, 100, (8, 75), 3, 'abc'), drawn(GADEMANN, 8, (2, None), 3)):
            self.assertEqual(text, plain_instances.text_of(plain_instances.instance_of('x', text)))

    def test_the_help_shows_a_plain_file(self):
        shown = re.search(r'\n\n((?:  .*\n)+)\nLengths', runs.script('benchmark', '--help').output)[1]
        self.assertEqual(PLAIN, shown.replace('\n  ', '\n')[2:])

    def test_empty_lines_marked_lines_and_leading_zeros_are_passed_over(self):
        text = '# three\r\n\r\n' + PLAIN.replace('1-4-L', '01-0004-L').replace('\n', '  \r\n \n').replace('depot 1', '#\n  depot   1')
        self.assertEqual(PLAIN, plain_instances.text_of(plain_instances.instance_of('x', text)))

    def test_classes_are_written_and_read_again(self):
        words = ('--class', 'gademann-velde,henn-waescher', '--orders', '8,65', '--capacity', '4', '--units', '40',
                 '--demand', 'uniform', '--seeds', '2')
        done = runs.script('benchmark', *words, '--write', 'made', folder=self.folder)
        self.assertEqual((0, 8), (done.status, done.output.count('\n')))
        plain = self.folder / 'made' / 'henn-waescher-uniform-65-capacity-4-units-40-seed-2.txt'
        self.assertEqual(drawn(HENN, 65, (4, 40), 2), plain.read_text())
        desks = (plain.with_suffix('') / 'desks.csv').read_text().splitlines()
        self.assertEqual(['submit,W1', 'release,W1', 'submit,W2', 'release,W2'],
                         [','.join(line.split(',')[1:3]) for line in desks[1:]])
        self.assertEqual([3 + 33, 3 + 32], [len(line.split(',')) for line in desks[1::2]])

    def test_what_is_no_plain_file_is_told(self):
        """Each line is left out, has another first word, or a word more; and the file is cut short behind each."""
        lines = PLAIN.splitlines(True)
        found = [''.join(lines[:place]) for place in range(len(lines))]
        for place, line in enumerate(lines):
            before, after = ''.join(lines[:place]), ''.join(lines[place + 1:])
            found += [before + after, before + 'x' + line + after, before + line.strip() + ' x\n' + after]
        for text in [*found, PLAIN + 'x\n', PLAIN[:-5] + '\n']:
            self.plain.write_text(text)
            done = runs.script('benchmark', '--read', self.plain, '--program', 'program', folder=self.folder)
            self.assertEqual((2, '', 1), (done.status, done.output, done.errors.count('\n')), text)
            self.assertRegex(done.errors, r'is cut short: ".*" is due|is ".*", where ".*" is due|has more lines')
        self.assertFalse((self.folder / 'calls').exists())

    def test_an_instance_that_no_day_has_is_told(self):
        many = ''.join('order O%d 1-4-L 1\n' % number for number in range(1, 10002))
        units = 'order O2 of instance three-orders has 3 units, and a cart holds 2: an order is never split'
        for old, new, why in (('O3', 'O1', 'instance three-orders has order O1 twice'),
                              ('3-1-L', '4-1-L', 'order O3 picks at 4-1-L, which the layout has not'),
                              ('1-4-L 1', '1-4-L 1' + ' 1-4-L 1' * 50, 'O1 has 51 picks, and an order has 1 to 50'),
                              ('units 5', 'units 2', units),
                              ('order O3', 'order O/3', 'O/3 is no name of an order'),
                              ('three-orders', '../x', '../x is no name of an instance'),
                              ('1-4-L 1', '1-4-L 100001', 'is "order O1 1-4-L 100001", where'),
                              ('orders 3\n', 'orders 10001\n' + many, 'from 1 to 10000" is due'),
                              ('orders 3\n', 'orders 0\n', 'from 1 to 10000" is due'),
                              ('spacings 5 5', 'spacings 5', 'is "spacings 5", where'),
                              ('spacings 5 5', 'spacings 5 0', 'is "spacings 5 0", where'),
                              ('depot 1 front', 'depot 4 front', 'is "depot 4 front", where'),
                              ('capacity 2', 'capacity 9', 'where "capacity NUMBER, from 1 to 8" is due')):
            self.plain.write_text(PLAIN.replace(old, new, 1))
            done = runs.script('benchmark', '--read', self.plain, '--program', 'program', folder=self.folder)
            self.assertEqual((2, '', 1), (done.status, done.output, done.errors.count('\n')), new[:40])
            self.assertIn(why, done.errors)

    def test_more_than_a_location_holds_is_told(self):
        text = PLAIN.replace('1-4-L 1', ' '.join(['1-4-L 100000'] * 11)).replace('units 5', 'units none')
        self.plain.write_text(text)
        done = runs.script('benchmark', '--read', self.plain, folder=self.folder)
        why = 'benchmark: all orders want 1100000 units at 1-4-L, and a location holds at most 1000000\n'
        self.assertEqual((2, why), (done.status, done.errors))

    def test_folders_that_can_not_be_written(self):
        for name in ('/dev/null', '/dev/null/x', '/proc/x', 'plain.txt', 'x' * 5000):
            done = runs.script('benchmark', '--read', self.plain, '--write', name, folder=self.folder)
            self.assertEqual((4, '', 1), (done.status, done.output, done.errors.count('\n')), name[:40])
            self.assertIn('cannot be written', done.errors)
        done = runs.script('benchmark', '--read', self.plain, self.plain, '--write', 'made', folder=self.folder)
        self.assertEqual((2, False), (done.status, (self.folder / 'made').exists()))
        self.assertIn('2 instances are called three-orders', done.errors)


class Words(unittest.TestCase):
    def test_lists(self):
        read = word_lists.listed(1, 200, {'none': None})
        for word, due in (('3', [3]), ('8,2..4,3', [8, 2, 3, 4]), ('none,5', [None, 5]), ('7..7', [7])):
            self.assertEqual(due, read(word))
        for word in ('', ',', '3,', '0', '201', '4..2', '2..', '..2', '1..101', 'x', '1.5', '\u0663', '9' * 5000):
            with self.assertRaises(Exception) as told:
                read(word)
            self.assertEqual('ArgumentTypeError', type(told.exception).__name__, word[:40])

    def test_words_that_are_wrong(self):
        henn = ['--class', 'henn-waescher', '--orders', '1']
        for words, why in ((['--class', 'henn'], 'henn is none of henn-waescher and gademann-velde'),
                           ([*henn, '--seed', 'x'], 'argument --seed: it is a whole number from 0 to'),
                           ([*henn, '--seed', '-1'], 'argument --seed: '),
                           ([*henn, '--seed', str(2 ** 64)], 'argument --seed: '),
                           ([*henn, '--seed', str(2 ** 64 - 1)], 'and none is above 18446744073709551615'),
                           ([*henn, '--seeds', '0'], 'argument --seeds: '),
                           ([*henn, '--orders', '10001'], 'argument --orders: it is a whole number from 1 to 10000'),
                           ([*henn, '--demand', 'xyz'], 'xyz is none of abc and uniform'),
                           (['--class', 'gademann-velde', '--demand', 'abc'], 'class gademann-velde has no demand abc'),
                           ([*henn, '--units', '4'], 'an order is never split'),
                           ([*henn, '--capacity', '9'], 'argument --capacity: '),
                           ([*henn, '--table', '--json'], 'not allowed with argument --table'),
                           ([*henn, '--program', 'nowhere'], 'nowhere is no program'),
                           ([*henn, '--jobs', '0'], 'argument --jobs: '), (['--read', 'nowhere'], 'cannot be read')):
            done = runs.script('benchmark', *words)
            self.assertEqual((2, '', 1), (done.status, done.output, done.errors.count('\n')), words)
            self.assertIn(why, done.errors)
        for words in ([], ['--seeds', '3'], ['--write', 'made']):
            done = runs.script('benchmark', *words)
            self.assertEqual((2, ''), (done.status, done.output))
            self.assertIn('usage: tools/', done.errors)


def rows_by_hand():
    """A row of three instances, whose gaps are 0, 25 and 50 percent; one that the program doesn't know; and one of
    which the program failed at two."""
    three = [instance_of(1)._replace(name='seed-%d' % seed) for seed in (1, 2, 3)]
    group = Group('some', 1, 2, None, three)
    results = [Result(48, 48, True, 1, 0.5), Result(52, 39, False, 3, 1.0), Result(56, 28, False, 2, 3.0)]
    return [Row(group, Way(2000000, False, None), results),
            Row(group, Way(None, True, 7), [benchmark_rows.BAD_WORDS] * 3),
            Row(group, Way(0, False, None), ['the program ended with status 5', results[0], benchmark_rows.BAD_WORDS])]


class Figures(unittest.TestCase):
    def test_mean_and_spread_by_hand(self):
        """Of 48, 52 and 56 the mean is 52, and the squares of what they are off come to 32, half of which is 16. Of 0,
        25 and 50 the mean is 25, and the squares come to 1250, half of which is 625."""
        row = rows_by_hand()[0]
        for name, due in (('cost', Spread(48, 52, 56, 4)), ('gap', Spread(0, 25, 50, 25)),
                          ('nodes', Spread(1, 2, 3, 1))):
            self.assertEqual(due, measures.spread_of(row.ends, name))
        self.assertEqual(Spread(7, 7, 7, None), measures.spread([7]))

    def test_the_cells_of_rows_by_hand(self):
        """The bounds 48, 39 and 28 have the mean 38 and a third; they are off by 29, 2 and 31 thirds, whose squares
        841, 4 and 961 come to 1806 ninths; half of it is 100 and a third, whose root is 10.02."""
        headings, cells = benchmark_rows.table_of(rows_by_hand())
        self.assertEqual(list(benchmark_rows.HEADINGS), headings)
        some = ['some', '1', '2', 'none']
        self.assertEqual([
            [*some, '2,000,000', 'no', '-', '52.0 \u00b14.0 (48 to 56)', '38.3 \u00b110.0 (28 to 48)',
             '25.00 \u00b125.00 (0.00 to 50.00)', '1 of 3', '2.0 (1 to 3)', '1.50 (0.50 to 3.00)'],
            [*some, '-', 'yes', '7', 'not in this program', '', '', '', '', ''],
            [*some, '0', 'no', '-', '48', '48', '0.00', '1 of 1', '1', '0.50']], cells)
        self.assertEqual(['seed-1, budget 0: the program ended with status 5',
                          'seed-3, budget 0: refused words bad-words'], list(benchmark_rows.failures(rows_by_hand())))
        plain, _ = benchmark_rows.table_of(rows_by_hand()[:1])
        self.assertEqual([heading for heading in headings if not heading.startswith('--')], plain)

    def test_two_waves_by_hand(self):
        self.assertEqual(Result(64, 56, False, 2, 0.25), measures.result_of(Ended(0, TWO_WAVES, 0.25)))
        self.assertEqual(12.5, measures.gap(Result(64, 56, False, 2, 0.25)))
        both = TWO_WAVES.replace('bound 40 open', 'bound 48 proven')
        self.assertEqual(Result(64, 64, True, 2, 1.0), measures.result_of(Ended(0, both, 1.0)))

    def test_a_run_that_came_to_nothing_says_why(self):
        for ended, why in ((Ended(1, 'refused words bad-words\n', 0.1), 'refused words bad-words'),
                           (Ended(-9, '', 0.1), 'the program was stopped by signal 9'),
                           (Ended(0, REFUSED, 0.1), 'release W1 -> refused short A 2 1'),
                           (Ended(0, REFUSED.replace('refused short A 2 1', 'released'), 0.1), 'no wave went out')):
            self.assertEqual(why, measures.result_of(ended))


class Runs(unittest.TestCase):
    """Whole calls over a program that prints the two waves."""

    def setUp(self):
        self.folder = Path(tempfile.mkdtemp(dir=runs.shelf().name))
        self.plain = put_plain(self.folder)

    def benchmark(self, *words, status=0):
        done = runs.script('benchmark', *words, '--program', 'program', '--keep', 'kept', folder=self.folder)
        self.assertEqual((status, ''), (done.status, done.errors))
        return done.output

    def calls(self):
        return (self.folder / 'calls').read_text().splitlines()

    def test_a_plain_file_is_planned_in_each_way(self):
        lines = self.benchmark('--read', 'plain.txt', '--budget', '0,7', '--capacity', '2..3', '--units', 'none,5')
        cells = [re.split('  +', line) for line in lines.splitlines()[1:9]]
        self.assertEqual([['three-orders', '3', capacity, units, budget, '64', '56', '12.50', '0 of 1', '2']
                          for capacity in '23' for units in ('none', '5') for budget in '07'],
                         [row[:-1] for row in cells])
        self.assertIn('plan --desks desks --layout layout --orders orders --stock stock --capacity 3 --units 5 '
                      '--budget 7', [' '.join(['plan', *sorted_options(call)]) for call in self.calls()])

    def test_a_class_has_a_row_for_its_seeds(self):
        lines = self.benchmark('--class', 'gademann-velde', '--orders', '1', '--capacity', '2', '--seeds', '3',
                               '--jobs', '2').splitlines()
        self.assertEqual(['gademann-velde', '1', '2', 'none', '2,000,000', '64', '56', '12.50', '0 of 3', '2'],
                         re.split('  +', lines[1])[:10])
        self.assertEqual(3, len(self.calls()))

    def test_what_the_program_does_not_know_is_told_and_the_run_goes_on(self):
        lines = self.benchmark('--read', 'plain.txt', '--sharp', '--nodes', '3,4').splitlines()
        self.assertEqual([('2,000,000', 'no', '-', '64'), *((*way, 'not in this program') for way in (
            ('2,000,000', 'yes', '-'), ('-', 'no', '3'), ('-', 'yes', '3'), ('-', 'no', '4'), ('-', 'yes', '4')))],
                         [tuple(re.split('  +', line)[4:8]) for line in lines[1:7]])
        self.assertTrue(any(call.endswith(' --nodes 4 --sharp 1') for call in self.calls()))
        self.assertFalse(any('--budget' in call and '--nodes' in call for call in self.calls()))

    def test_runs_that_came_to_nothing_are_told(self):
        for pitch, why in (('9', 'the program ended with status 5'), ('8', 'release W1 -> refused short A 2 1')):
            self.plain.write_text(PLAIN.replace('pitch 2', 'pitch ' + pitch))
            lines = self.benchmark('--read', 'plain.txt', status=1)
            self.assertIn(why, lines.splitlines()[1])
            self.assertEqual('three-orders, budget 2,000,000: ' + why, lines.splitlines()[-1])

    def test_what_was_run_is_not_run_again(self):
        words = ['--class', 'gademann-velde', '--orders', '1,2', '--capacity', '2', '--seeds', '2', '--json']
        first = json.loads(self.benchmark(*words))
        self.assertEqual(first['rows'], json.loads(self.benchmark(*words))['rows'])
        self.assertEqual(4, len(self.calls()))
        self.benchmark(*words, '--sharp')
        self.assertEqual(8, len(self.calls()))

    def test_the_object_has_all_figures(self):
        found = json.loads(self.benchmark('--read', 'plain.txt', '--sharp', '--json'))
        self.assertEqual(('waveplan benchmark 1', {}), (found['format'], found['classes']))
        plain, sharp = found['rows']
        run = {name: value for name, value in plain['runs'][0].items() if name != 'seconds'}
        self.assertEqual({'instance': 'three-orders', 'cost': 64, 'bound': 56, 'gap': 12.5, 'proven': False,
                          'nodes': 2}, run)
        self.assertEqual(({'least': 64, 'mean': 64, 'greatest': 64, 'deviation': None}, 0, True, 5),
                         (plain['cost'], plain['proven'], plain['known'], plain['units']))
        self.assertEqual((False, [{'instance': 'three-orders', 'why': 'refused words bad-words'}]),
                         (sharp['known'], sharp['runs']))

    def test_the_table_in_markdown(self):
        lines = self.benchmark('--read', 'plain.txt', '--table', '--jobs', '2').splitlines()
        self.assertEqual('| instances | orders | capacity | units | budget | cost | bound | gap % | proven | nodes | '
                         'seconds |', lines[0])
        self.assertEqual('| --- |' + ' ---: |' * 10, lines[1])
        self.assertTrue(lines[2].startswith('| three-orders | 3 | 2 | 5 | 2,000,000 | 64 | 56 | 12.50 | 0 of 1 | 2 | '))
        self.assertRegex(lines[4], r'^Measured on \d{4}-\d\d-\d\d with the program with the SHA-256 [0-9a-f]{16}\.\., '
                                   r'up to 2 runs side by side on \d+ processors, by$')
        self.assertEqual('    tools/wave benchmark --read plain.txt --table --jobs 2 --program program --keep kept',
                         lines[6])
        self.assertIn('one run at a time on ', self.benchmark('--read', 'plain.txt', '--table', '--jobs', '1'))

    def test_the_page_needs_no_other_file_and_has_a_picture_of_each_gap(self):
        page = self.benchmark('--class', 'gademann-velde', '--orders', '1', '--sharp', '--html')
        network = r'(?:src|href)="(?!#)|url\(|@import|fetch|XMLHttp|https?:(?!//www\.w3\.org/2000/svg")'
        self.assertIsNone(re.search(network, page))
        pictures = re.findall('<svg xmlns.*?</svg>', page)
        self.assertEqual(4, len(pictures))
        for picture in pictures:
            self.assertIn('12.50 to 12.50 %', ElementTree.fromstring(picture)[0].text)
        self.assertEqual(4, page.count('not in this program'))
        self.assertIn('After Gademann and van de Velde (2005), as it is known here', page)


def sorted_options(call):
    """The options of a call, those that name files first and in the order of their names."""
    words = call.split(' ')[1:]
    pairs = list(zip(words[::2], words[1::2]))
    return [word for pair in sorted(pairs[:4]) + pairs[4:] for word in pair]


if __name__ == '__main__':
    unittest.main()
