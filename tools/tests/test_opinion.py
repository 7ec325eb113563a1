"""Tests of the second opinion: its lengths against every order of a few slots, its certificates against those of the
cases, and faults that are planted in right outputs."""

import collections
import json
import random
import re
import unittest
from fractions import Fraction

import by_hand
import runs
from opinion import certificates, days, journals, json_text, layouts, making, priced, roots, rules, tables, tours, words
from opinion.refusals import Refusal
from opinion.stock_book import Book, by_overlap

SMALL = layouts.Layout(3, 4, 2, 1, (5, 5), 1, False)
DATA = runs.TOP / 'crates' / 'wp_cases' / 'data'


def length(layout, points):
    return tours.shortest(layout, tours.gathered(points))


def rule_fault(layout, points, line):
    """What is wrong with a line of rules, None where nothing is."""
    try:
        rules.judge_rules(days.Lines(line.encode() + b'\n'), layout, tours.gathered(points), length(layout, points))
    except days.Fault as why:
        return str(why)
    return None


def by_sums(layout, points):
    """What S-shape, return and largest gap walk, added up: along the ends, through aisles, and into them and out again.
    """
    def across(left, right):
        return sum(layout.spacings[min(left, right) - 1:max(left, right) - 1])

    depths, whole, depot = {}, layout.length(), layout.depot
    for aisle, slot in points:
        depths.setdefault(aisle, set()).add(whole - layout.depth(slot) if layout.back else layout.depth(slot))
    if not depths:
        return [0, 0, 0]
    first, last, odd = min(depths), max(depths), len(depths) % 2
    along = across(depot, first) + across(first, last) + across(last, depot)
    back = along + sum(2 * max(some) for some in depths.values())
    shape = along + (len(depths) - odd) * whole + odd * 2 * max(depths[last])
    if first == last:
        return [shape, back, back]
    around, homes = across(depot, first) + whole + across(first, last) + whole, []
    for aisle in sorted(set(depths) - {first, last}):
        places = [0, *sorted(depths[aisle]), whole]
        shallow, deep = max(zip(places, places[1:]), key=lambda gap: gap[1] - gap[0])
        around += 2 * shallow + 2 * (whole - deep)
        homes += [aisle] if shallow else []
    turn = min(homes, default=last)
    return [shape, back, around + across(last, turn) + across(turn, depot)]


def refused(call, *words):
    """The line with which a call refuses, None where it doesn't."""
    try:
        call(*words)
    except Refusal as why:
        return why.line
    return None


class Tours(unittest.TestCase):
    def test_rows_worked_by_hand(self):
        back = SMALL._replace(back=True)
        for layout, points, due in ((SMALL, [(1, 4), (2, 1), (2, 4), (3, 1)], 38), (SMALL, [(3, 4)], 34),
                                    (SMALL, [], 0), (back, [(1, 1)], 14),
                                    (SMALL._replace(spacings=(5, 20)), [(3, 1)], 52), (back, [(1, 1), (2, 1)], 26),
                                    (back, [], 0),
                                    (back._replace(depot=2), [(2, 4)], 2), (back._replace(depot=2), [(2, 1)], 14)):
            self.assertEqual(due, length(layout, points), (layout, points))

    def test_lengths_are_those_of_every_order_of_the_slots(self):
        dice = random.Random(1)
        for _ in range(1500):
            aisles, slots = dice.randint(1, 7), dice.randint(1, 6)
            spacings = tuple(dice.randint(1, 30) for _ in range(aisles - 1))
            layout = layouts.Layout(aisles, slots, dice.randint(1, 9), dice.randint(1, 9), spacings,
                                    dice.randint(1, aisles), dice.random() < 0.5)
            points = [(dice.randint(1, aisles), dice.randint(1, slots)) for _ in range(dice.randint(0, 6))]
            due = tours.shortest_of_all(layout, points)
            self.assertEqual(due, length(layout, points), (layout, points))
            self.assertEqual(due, tours.Lengths(layout).shortest(tours.gathered(points)), (layout, points))

    def test_rules_walk_as_they_say(self):
        every = [(aisle, slot) for aisle in (1, 2, 3) for slot in (1, 2, 3, 4)]
        for points, due in ((every, 's-shape 50 2 return 62 14 largest-gap 48 0'),
                            ([(1, 4), (2, 1), (2, 4), (3, 1)], 's-shape 38 0 return 50 12 largest-gap 40 2'),
                            ([(3, 4)], 's-shape 34 0 return 34 0 largest-gap 34 0')):
            self.assertIsNone(rule_fault(SMALL, points, 'rules ' + due))

    def test_what_is_wrong_with_a_line_of_rules_is_found(self):
        points, right = [(1, 4), (2, 1), (2, 4), (3, 1)], 'rules s-shape 38 0 return 50 12 largest-gap 40 2'
        for old, new, words in (('50 12', '50 13', 'surplus of return'),
                                ('38 0', '36 0', 'no tour of the batch is shorter'),
                                ('40 2', '42 4', 'by largest-gap is 40 long'),
                                ('50 12', '48 10', 'by return is 50 long'), ('38 0', '40 0', 'surplus of s-shape'),
                                ('38 0', '50 12', 'by s-shape is 38 long'),
                                (' largest-gap 40 2', '', 'no line of rules'),
                                ('s-shape 38 0 return 50 12', 'return 50 12 s-shape 38 0', 'no line of rules'),
                                ('38 0', '38 -0', 'no line of rules'), ('38 0', '038 0', 'no line of rules'),
                                ('rules', 'rule', 'no line of rules')):
            self.assertRegex(rule_fault(SMALL, points, right.replace(old, new)) or 'nothing found', words, new)

    def test_a_walk_goes_straight_from_stop_to_stop(self):
        found = rules.Rules(SMALL, tours.gathered([(1, 4), (2, 1), (2, 4), (3, 1)]))
        up, down = [(1, slot) for slot in range(6)], [(2, slot) for slot in range(5, -1, -1)]
        self.assertEqual([*up, *down, (3, 0), (3, 1), (3, 0), (2, 0), (1, 0)], found.walks()['s-shape'])
        self.assertRaises(ValueError, rules.straight, (1, 0), (2, 5))
        self.assertIsNone(tours.walked(SMALL, [(1, 2), *rules.straight((1, 2), (2, 2))]))
        self.assertEqual([[(1, 0)]] * 3, list(rules.Rules(SMALL, {}).walks().values()))

    def test_each_rule_walks_a_tour_of_the_length_that_its_parts_add_up_to(self):
        dice = random.Random(2)
        for _ in range(1500):
            aisles, slots = dice.randint(1, 7), dice.randint(1, 6)
            spacings = tuple(dice.randint(1, 30) for _ in range(aisles - 1))
            layout = layouts.Layout(aisles, slots, dice.randint(1, 9), dice.randint(1, 9), spacings,
                                    dice.randint(1, aisles), dice.random() < 0.5)
            points = [(dice.randint(1, aisles), dice.randint(1, slots)) for _ in range(dice.randint(0, 8))]
            walks = rules.Rules(layout, tours.gathered(points)).walks()
            for name, walk in walks.items():
                self.assertEqual((layout.depot_point(),) * 2, (walk[0], walk[-1]), (layout, points, name))
                self.assertLessEqual(set(points), set(walk), (layout, points, name))
                self.assertGreaterEqual(tours.walked(layout, walk), length(layout, points), (layout, points, name))
            self.assertEqual(by_sums(layout, points), [tours.walked(layout, walks[name]) for name in rules.NAMES],
                             (layout, points))


class Certificates(unittest.TestCase):
    LAYOUT = layouts.read_layout((runs.EXAMPLES / 'one-certificate' / 'layout.json').read_bytes())
    CART = ('{"capacity":2,"loads":[3,3,3],"nodes":[{"duals":[2040,2040,2040],"kind":"leaf","marks":"1110",'
            '"tight":[[0],[1],[2]]}],'
            '"orders":[[[3,4]],[[3,4]],[[3,4]]],"units":5,"version":2}')

    def answer(self, text):
        try:
            return certificates.bound_of(self.LAYOUT, certificates.read_certificate(text, self.LAYOUT))
        except Refusal as why:
            return why.line.replace('refused certificate ', '')

    def test_each_case_has_its_answer(self):
        due = {'right': 68, 'of-the-kept-root': 51, 'capacity-nine': 'out-of-range', 'last-byte-left-out': 'not-json',
               'version-as-text': 'bad-shape',
               'leaf-named-dead': 'node 1 not-dead 0', 'nodes-cut': 'node 2 cut', 'one-node-too-many': 'node 3 cut',
               'of-no-bytes': 'not-json',
               'root-dual-above-reach': 'node 0 bad-marks', 'root-pair-not-feasible': 'node 0 not-feasible 0 1',
               'root-sum-low': 'node 0 sum-low',
               'root-two-duals': 'node 0 duals-length', 'split-pair-backwards': 'node 0 bad-pair',
               'split-without-duals': 'node 0 split-kept',
               'tight-batch-not-permitted': 'node 1 not-tight 2', 'dual-too-high': 'node 1 not-feasible 2',
               'zero-mark-too-early': 'node 2 bad-marks'}
        for name, answer in due.items():
            self.assertEqual(answer, self.answer((DATA / 'certificates' / (name + '.json')).read_bytes()), name)

    def test_a_cart_is_judged_by_its_units(self):
        for change, due in (((), 102), (('"units":5', '"units":6'), 'node 0 not-feasible 0 1'),
                            (('3,3,3', '3,3,6'), 'out-of-range'),
                            (('"units":5', '"units":0'), 'out-of-range'),
                            (('"units":5', '"units":40000001'), 'out-of-range'), (('3,3,3', '3,3'), 'out-of-range'),
                            (('"version":2', '"version":1'), 'out-of-range'), (('"units":5,', ''), 'bad-shape'),
                            (('"loads":[3,3,3],', ''), 'bad-shape'),
                            (('3,3,3', '3,3.0,3'), 'bad-shape'), (('3,3,3', '0,3,3'), 'node 0 not-feasible 0 1')):
            self.assertEqual(due, self.answer(self.CART.replace(*change).encode() if change else self.CART.encode()),
                             change)


class Prices(unittest.TestCase):
    """Certificates of the third form: worked ones and changes of them, and drawn ones."""
    COUNTED = ('{"capacity":2,"cuts":[],"nodes":[{"count":2040,"duals":[0,0,0],"kind":"leaf","marks":"1000","prices":[],'
               '"tight":[[0],[1],[2]]}],"orders":[[[3,4]],[[3,4]],[[3,4]]],"step":2,"version":3}')
    CUT = ('{"capacity":2,"cuts":[{"divisor":2,"orders":[0,1,2],"parts":[1,1,1]}],"nodes":[{"count":0,'
           '"duals":[2040,2040,2040],"kind":"leaf","marks":"1100100","prices":[2040],"tight":[[0],[0,1],[0,2]]}],'
           '"orders":[[[3,4]],[[3,4]],[[3,4]]],"step":2,"version":3}')

    def answer(self, text, *change):
        """What is said of a text in which some parts are changed, each of which stands in it once."""
        for old, new in change:
            self.assertEqual(1, text.count(old), old)
            text = text.replace(old, new)
        try:
            return certificates.bound_of(SMALL, certificates.read_certificate(text.encode(), SMALL))
        except Refusal as why:
            return why.line.replace('refused certificate ', '')

    def test_a_count_is_worked_by_hand(self):
        cart = '"nodes":', '"loads":[1,1,1],"units":%d,"nodes":'
        for change, due in (((), 68), ((('2040', '2041'),), 'node 0 not-feasible 0'),
                            ((('2040', '1020'),), 'node 0 sum-low'), ((('"1000"', '"100"'),), 'node 0 bad-marks'),
                            ((('"1000"', '"0"'),), 'node 0 bad-marks'),
                            ((('[0],[1]', '[0],[0]'),), 'node 0 not-tight 1'),
                            (((cart[0], cart[1] % 1),), 102), (((cart[0], cart[1] % 2),), 68),
                            ((('"version":3', '"version":1'),), 'out-of-range'),
                            ((('"step":2', '"step":4'),), 'out-of-range'),
                            ((('2040', '1000000000001'),), 'out-of-range'), ((('"cuts":[],', ''),), 'bad-shape'),
                            ((('"step":2,', ''),), 'bad-shape'), ((('"count":2040,', ''),), 'bad-shape'),
                            ((('"prices":[],', ''),), 'bad-shape'),
                            ((('"cuts":[]', '"cuts":[{}]'),), 'bad-shape')):
            self.assertEqual(due, self.answer(self.COUNTED, *change), change)

    def test_a_cut_is_worked_by_hand(self):
        cut = '{"divisor":2,"orders":[0,1,2],"parts":[1,1,1]}'
        for change, due in (((), 68), ((('"prices":[2040]', '"prices":[2039]'),), 'node 0 not-feasible 0 1'),
                            ((('"prices":[2040]', '"prices":[2041]'),), 'node 0 not-tight 1'),
                            ((('"divisor":2', '"divisor":1'),), 'node 0 bad-cuts'),
                            ((('"divisor":2', '"divisor":9'),), 'node 0 bad-cuts'),
                            ((('"divisor":2', '"divisor":4294967296'),), 'bad-shape'),
                            ((('[1,1,1]', '[1,1,0]'),), 'node 0 bad-cuts'),
                            ((('[1,1,1]', '[2,1,1]'),), 'node 0 bad-cuts'),
                            ((('[1,1,1]', '[1,1]'),), 'node 0 bad-cuts'),
                            ((('[0,1,2]', '[0,2,1]'),), 'node 0 bad-cuts'),
                            ((('[0,1,2]', '[0,1,3]'),), 'node 0 bad-cuts'), ((('[0,1,2]', '[]'),), 'node 0 bad-cuts'),
                            (((cut, ','.join([cut] * 65)),), 'node 0 bad-cuts'),
                            (((cut, ','.join([cut] * 64)), ('"prices":[2040]', '"prices":[2040%s]' % (',0' * 63))), 68),
                            ((('"prices":[2040]', '"prices":[]'),), 'node 0 duals-length'),
                            ((('"prices":[2040]', '"prices":[2040,0]'),), 'node 0 duals-length'),
                            ((('"1100100"', '"1000"'),), 'node 0 bad-marks')):
            self.assertEqual(due, self.answer(self.CUT, *change), change)

    def test_where_all_is_decided_there_are_duals_alone(self):
        one = ('{"capacity":2,"cuts":[],"nodes":[{"count":2040,"duals":[0],"kind":"leaf","marks":"1","prices":[],'
               '"tight":[[0]]}],"orders":[[[3,4]]],"step":2,"version":3}')
        self.assertEqual('node 0 decided-prices', self.answer(one))
        self.assertEqual(34, self.answer(one, ('2040', '0'), ('"duals":[0]', '"duals":[2040]'), ('"1"', '"10"')))

    def test_bounds_are_rounded_up_to_the_step(self):
        for layout, step in ((layouts.Layout(2, 2, 100, 150, (300,), 1, False), 100),
                             (layouts.Layout(1, 1, 2, 7, (), 1, False), 14),
                             (layouts.Layout(3, 2, 6, 9, (12, 20), 1, True), 2)):
            self.assertEqual(step, certificates.step_of(layout))
            text = '{"capacity":2,"cuts":[],"nodes":[{"kind":"kept"}],"orders":[[[1,1]]],"step":%d,"version":3}' % step
            share = tours.shortest(layout, tours.gathered([(1, 1)])) / 2
            found = certificates.bound_of(layout, certificates.read_certificate(text.encode(), layout))
            self.assertEqual((0, True), (found % step, share <= found < share + step))

    def test_lengths_are_multiples_of_the_step(self):
        dice = random.Random(6)
        for _ in range(2000):
            layout = layouts.read_layout(priced.layout_of(dice).encode())
            points = [(dice.randint(1, layout.aisles), dice.randint(1, layout.slots))
                      for _ in range(dice.randint(0, 6))]
            self.assertEqual(0, tours.shortest(layout, tours.gathered(points)) % certificates.step_of(layout),
                             (layout, points))

    def test_drawn_certificates_are_right_and_no_batching_costs_less(self):
        for number in range(60):
            text, value = priced.certificate_of(random.Random(number))
            layout = layouts.read_layout(text.encode())
            found = certificates.read_certificate(json.dumps(value).encode(), layout)
            self.assertLessEqual(certificates.bound_of(layout, found), priced.least_cost(layout, found), number)

    def test_changed_certificates_are_refused_or_their_bound_holds(self):
        told = collections.Counter()
        for number in range(100):
            dice = random.Random(number)
            text, value = priced.certificate_of(dice)
            layout = layouts.read_layout(text.encode())
            try:
                changed = json.dumps(priced.changed(dice, value)).encode()
                found = certificates.read_certificate(changed, layout)
                bound = certificates.bound_of(layout, found)
            except Refusal as why:
                told[re.sub(r'refused certificate (node \d+ )?(\S+).*', r'\2', why.line)] += 1
                continue
            told['bound'] += 1
            if len(found.orders) <= priced.MOST_ORDERS:
                self.assertLessEqual(bound, priced.least_cost(layout, found), number)
        self.assertLessEqual({'bound', 'bad-shape', 'out-of-range', 'bad-cuts', 'duals-length', 'sum-low', 'not-feasible',
                              'bad-marks', 'not-tight'}, set(told))


class Files(unittest.TestCase):
    def test_json_is_strict(self):
        for text in (b'', b'\xef\xbb\xbf{}', b'[1,]', b'01', b'1e400', b'-', b'NaN', b'"\x01"', b'"\\ud800"',
                     b'[' * 128 + b']' * 128, b'"\xff"', b'{} x'):
            self.assertRaises(json_text.NotJson, json_text.read, text)
        self.assertEqual({'a': 2}, json_text.read(b' {"a":1,"a":2}\n'))
        self.assertEqual('1.0', json_text.read(b'1.0').text)
        self.assertEqual(2 ** 64 - 1, json_text.read(b'18446744073709551615'))
        self.assertEqual('18446744073709551616', json_text.read(b'18446744073709551616').text)

    def test_layouts_are_tested_in_order(self):
        two = '{"version":2,"aisles":3,"slots":4,"pitch":2,"clearance":1,"spacings":[5,20],"depot":1,"end":"front"}'
        for change, due in (('{"version":3}', 'out-of-range version'), ('{"version":"2"}', 'not-whole version'),
                            ('{}', 'missing-key version'), ('[]', 'not-object'),
                            ('x', 'not-json'), (two.replace('"spacings":[5,20]', '"spacing":5'),
                                                'missing-key spacings'),
                            (two.replace('}', ',"spacing":5}'), 'unknown-key'),
                            (two.replace('[5,20]', '[5]'), 'out-of-range spacings'),
                            (two.replace('[5,20]', '[5,5.0]'), 'not-whole spacings'),
                            (two.replace('[5,20]', '[5,10001]'), 'out-of-range spacings'),
                            (two.replace('"front"', '"left"'), 'not-end'),
                            (two.replace('"depot":1', '"depot":4'), 'out-of-range depot'),
                            (two.replace('"aisles":3', '"aisles":65'), 'out-of-range aisles')):
            self.assertEqual('refused layout ' + due, refused(layouts.read_layout, change.encode()), change)
        self.assertEqual((5, 20), layouts.read_layout(two.encode()).spacings)
        self.assertEqual('refused layout unknown-key', refused(layouts.read_layout,
                                                               two.replace('"spacings":[5,20]', '"spacing":5').encode(),
                                                               (1,)))

    def test_records_are_read_as_documented(self):
        for text, due in ((b'a,b\r\nc', [[b'a', b'b'], [b'c']]), (b'"a,""b"c,d\n\n,,\nx,,', [[b'a,"bc', b'd'], [b'x']]),
                          (b'a"b,"c', [[b'a"b', b'c']]),
                          (b'\xef\xbb\xbfa\rb', [[b'a'], [b'b']]), (b'"a\nb",c', [[b'a\nb', b'c']])):
            self.assertEqual(due, [record.fields for record in tables.records(text)], text)
        self.assertEqual([1, 3], [record.number for record in tables.records(b'a\n\n,\nb\n')])

    def test_words_are_read_as_documented(self):
        job = words.read_words('plan --layout=l --stock s --orders o --desks d --capacity +03'.split())
        self.assertEqual(({'capacity': 3, 'budget': 2000000, 'nodes': None, 'workers': 1, 'units': None, 'rules': 0, 'pickers': 0,
                           'root': 0, 'store': 0}, 'l'), (job.numbers, job.files['layout']))
        for units, due in (('1', 1), ('=40000000', 40000000), ('=+007', 7)):
            for mode in ('plan --desks d --capacity 3', 'audit --journal j'):
                asked = '%s --layout l --stock s --orders o --units%s%s' % (mode, '' if '=' in units else ' ', units)
                self.assertEqual(due, words.read_words(asked.split()).numbers['units'], asked)
        for units in ('0', '40000001', '1.5', '-1', '', '5 --units 6'):
            for mode in ('plan --desks d --capacity 3', 'audit --journal j'):
                asked = '%s --layout l --stock s --orders o --units %s' % (mode, units)
                self.assertEqual('refused words bad-words', refused(words.read_words, asked.split()), asked)
        self.assertEqual('refused words bad-words', refused(words.read_words,
                                                            'check --layout l --certificate c --units 5'.split()))
        for word, due in (('--rules 0', 0), ('--rules=1', 1), ('--rules +01', 1), ('--rules=-0', 0), ('--pickers 0', 0),
                          ('--pickers 100', 100), ('--pickers=007', 7),
                          ('--root 0', 0), ('--root=1', 1), ('--root +01', 1), ('--root=-0', 0), ('--store 0', 0),
                          ('--store=1', 1), ('--store +01', 1), ('--store=-0', 0)):
            job = words.read_words(['plan', *'--layout l --stock s --orders o --desks d --capacity 3'.split(),
                                    *word.split()])
            self.assertEqual(due, job.numbers[re.match('--([a-z]+)', word)[1]], word)
        for word in ('--rules 2', '--rules -0', '--rules=-1', '--rules', '--rules=', '--rules 1 --rules 1',
                     '--rules 1.0', '--pickers 101', '--pickers=-1', '--pickers',
                     '--pickers x', '--pickers 3 --pickers 3', '--pickers 1 --rules', '--budget=-0', '--root 2',
                     '--nodes 0', '--nodes=0', '--nodes -1', '--nodes=-1', '--nodes 1000000001', '--nodes', '--nodes=',
                     '--nodes 1 --nodes 1', '--nodes 1 --budget 112', '--budget=0 --nodes=5', '--nodes x',
                     '--root -0', '--root=-1', '--root', '--root=',
                     '--root 1 --root 1', '--root=0 --root=1', '--root yes', '--root --rules 1', '--roots 1',
                     '--store 2', '--store -0', '--store=-1', '--store', '--store=',
                     '--store 1 --store 1', '--store=0 --store=1', '--store waveplan.store', '--stor 1'):
            asked = ['plan', *'--layout l --stock s --orders o --desks d --capacity 3'.split(), *word.split()]
            self.assertEqual('refused words bad-words', refused(words.read_words, asked), word)
        for mode in ('plan --layout l --stock s --orders o --desks d --capacity 3',
                     'make --number 1 --aisles 2 --orders 5 --desks 1 --wave 1 --capacity 1'):
            for nodes, due in ((' 1', 1), ('=1000000000', 10 ** 9), (' +016', 16)):
                numbers = words.read_words(('%s --nodes%s' % (mode, nodes)).split()).numbers
                self.assertEqual((due, 2000000), (numbers['nodes'], numbers['budget']), (mode, nodes))
        for asked in ('check --layout l --certificate c', 'audit --layout l --stock s --orders o --journal j'):
            self.assertEqual('refused words bad-words', refused(words.read_words, [*asked.split(), '--nodes', '1']))
        for asked in ('check --layout l --certificate c', 'audit --layout l --stock s --orders o --journal j',
                      'make --number 1 --aisles 2 --orders 5 --desks 1 --wave 1 --capacity 1'):
            for word in ('--rules 1', '--rules 0', '--pickers 2', '--pickers 0', '--root 1', '--root 0', '--store 1',
                         '--store 0'):
                self.assertIsNone(refused(words.read_words, asked.split()), asked)
                self.assertEqual('refused words bad-words', refused(words.read_words, [*asked.split(), *word.split()]),
                                 (asked, word))
        for text, why in (('', 'no-mode'), ('plann', 'unknown-mode'), ('check --layout l', 'bad-words'),
                          ('check --layout l --certificate --x', 'bad-words'),
                          ('check --layout l --certificate c x', 'bad-words'),
                          ('make --number 1 --aisles 2 --orders 501 --desks 1 --wave 1 --capacity 1',
                           'too-many-waves 501')):
            self.assertEqual('refused words ' + why, refused(words.read_words, text.split()), text)

    def test_journal_lines_are_read_as_documented(self):
        for line in ('0 1 submit W -> refused no-orders', '9999 8 pick W O 1-1-L 100000 -> refused too-much 4294967295',
                     '0 1 allot W -> refused short A 1 0'):
            self.assertIsNotNone(journals.read_entry(line.encode()), line)
        for line in ('00 1 allot W -> allotted', '0 9 allot W -> allotted', '10000 1 allot W -> allotted',
                     '0 1 pick W O 1-1-L 100001 -> picked',
                     '0 1 pick W O 01-1-L 1 -> picked', '0 1 allot W  -> allotted',
                     '0 1 allot W -> refused too-much 4294967296', '0 1 allot W -> Allotted'):
            self.assertIsNone(journals.read_entry(line.encode()), line)

    def test_holding_by_overlap(self):
        self.assertEqual([(0, 0, 2), (0, 1, 1), (1, 1, 3)], by_overlap([(0, 3), (1, 4)], [(0, 2), (1, 4)]))

    def test_made_files_are_those_of_the_documents(self):
        made = making.files(7, 4, 5, 2, 2)
        self.assertIn('O1,A4-34,4\nO1,A2-20,5\nO1,A1-20,2\nO2,A4-33,1\nO2,A2-3,1\nO3,A1-32,2\n', made['orders.csv'])
        self.assertTrue(made['desks.csv'].endswith('1,submit,W3,O5\n1,release,W3\n'))


class Planted(unittest.TestCase):
    """Each fault that is put into a right output is found."""

    @classmethod
    def setUpClass(cls):
        folder = runs.EXAMPLES / 'one-day'
        layout = layouts.read_layout((folder / 'layout.json').read_bytes())
        stock = tables.read_stock((folder / 'stock.csv').read_bytes(), layout)
        orders = tables.read_orders((folder / 'orders.csv').read_bytes(), stock)
        cls.opening = days.Opening(layout, stock, orders, tables.read_desks((folder / 'desks.csv').read_bytes()), 3,
                                   None)
        cls.output = runs.example_day().read_text()

    def fault(self, output):
        try:
            days.judge(self.opening, output.encode())
        except days.Fault as why:
            return str(why)
        return None

    def assert_found(self, pattern, new, words):
        changed, count = re.subn(pattern, new, self.output, count=1, flags=re.MULTILINE)
        self.assertEqual(1, count, 'nothing is planted')
        found = self.fault(changed)
        self.assertIsNotNone(found, 'not found: %s' % pattern)
        self.assertRegex(found, words)

    def test_the_output_is_right(self):
        self.assertIsNone(self.fault(self.output))

    def test_a_cost_one_too_high(self):
        self.assert_found(r'cost (\d+)', lambda found: 'cost %d' % (int(found[1]) + 1), 'cost')

    def test_cost_and_bound_one_too_high(self):
        self.assert_found(r'cost (\d+) bound (\d+)', lambda found: 'cost %d bound %d'
                          % (int(found[1]) + 1, int(found[2]) + 1), 'cost')

    def test_a_bound_one_too_high(self):
        self.assert_found(r'bound (\d+) proven', lambda found: 'bound %d proven' % (int(found[1]) + 1), 'bound')

    def test_proven_that_is_open(self):
        self.assert_found(r'bound (\d+) proven', lambda found: 'bound %d proven' % (int(found[1]) - 1), 'proven')

    def test_a_tour_that_leaves_the_depot(self):
        self.assert_found(r'^tour (\S+) (.*) \S+$', r'tour \1 \2', 'depot')

    def test_a_tour_that_jumps(self):
        self.assert_found(r'^tour (\S+) \S+ ', r'tour \1 ', 'no move')

    def test_a_tour_that_is_longer(self):
        self.assert_found(r'^batch 1 length (\d+)', lambda found: 'batch 1 length %d' % (int(found[1]) + 2), 'tour')

    def test_a_tour_with_a_detour(self):
        detour = 'batch 1 length %d'
        self.assert_found(r'^batch 1 length (\d+)(.*)\ntour 10-0 ',
                          lambda found: (detour + '%s\ntour 10-0 9-0 10-0 ') % (int(found[1]) + 700, found[2]),
                          'shortest')

    def test_a_pick_of_one_unit_more(self):
        self.assert_found(r'^(pick \S+ \S+) (\d+)', lambda found: '%s %d' % (found[1], int(found[2]) + 1), 'pick')

    def test_a_pick_that_is_left_out(self):
        self.assert_found(r'^pick .*\n', '', 'pick')

    def test_two_orders_that_change_places(self):
        self.assert_found(r'orders (\S+) (\S+) (\S+)$', r'orders \2 \1 \3', 'orders')

    def test_a_stock_that_is_one_off(self):
        self.assert_found(r'^(\S+ \S+) (\d+) (\d+) (\d+)$',
                          lambda found: '%s %d %d %s' % (found[1], int(found[2]) + 1, int(found[3]) + 1, found[4]),
                          'due')

    def test_another_reply(self):
        self.assert_found(r'refused short (\S+) 1 0', r'refused short \1 1 1', 'reply')

    def test_a_command_that_is_left_out(self):
        self.assert_found(r'^11 1 cancel .*\n', '', 'commands more|script')

    def test_a_refill_elsewhere(self):
        self.assert_found(r'^refill (.*) 6-13-R 1', r'refill \1 6-13-L 1', 'refill')

    def test_cancelled_later_left_out(self):
        self.assert_found(r' cancelled later', '', 'heading')

    def test_a_broken_certificate(self):
        self.assert_found(r'"marks":"1', '"marks":"0', 'marks')

    def test_a_dual_one_too_high(self):
        self.assert_found(r'"duals":\[(\d+)', lambda found: '"duals":[%d' % (int(found[1]) + 1), 'feasible|tight')

    def test_keys_in_another_order(self):
        self.assert_found(r'\{"capacity":3,(.*),"version":1\}', r'{\1,"capacity":3,"version":1}', 'compact')

    def test_an_output_that_is_cut(self):
        self.assertRegex(self.fault(self.output[:-4]), 'cut off')

    def test_something_behind_the_end(self):
        self.assertRegex(self.fault(self.output + 'x\n'), 'follows')


LATER = '''journal
0 1 submit W1 O1 -> submitted
1 1 release W1 -> released
end journal
wave W1 entry 1 orders 1 capacity 1 units 2 cost 2 bound 2 proven
batch 1 length 2 orders O1
tour 1-0 1-1 1-0
pick 1-1-L A 2 O1
rules s-shape 2 0 return 2 0 largest-gap 2 0
certificate {"capacity":1,"loads":[2],"nodes":[{"kind":"kept"}],"orders":[[[1,1]]],"units":2,"version":2}
root 1200 1200 over 600 narrow
end wave
refills
end refills
crew longest 2 least 2
picker 1 load 2 batches W1/1
picker 2 load 0 batches
end crew
stock
1-1-L A 5 3 2
end stock
end
'''
STORED = '''journal
0 1 submit W1 O1 -> submitted
1 1 release W1 -> released
2 1 cancel W1 -> cancelled
end journal
refills
end refills
stock
1-1-L A 5 5 0
end stock
end
'''


class Carts(unittest.TestCase):
    """A wave of three orders at one place, which load 3, 2 and 4 units, with a cart of 5."""

    OUT_AND_BACK = 'tour 1-0 2-0 3-0 3-1 3-2 3-3 3-4 3-3 3-2 3-1 3-0 2-0 1-0\n'
    OUTPUT = ('journal\n0 1 submit W1 O1 O2 O3 -> submitted\n1 1 release W1 -> released\nend journal\n'
              'wave W1 entry 1 orders 3 capacity 3 units 5 cost 68 bound 34 open\n'
              'batch 1 length 34 orders O1 O2\n' + OUT_AND_BACK + 'pick 3-4-L A 3 O1\npick 3-4-L A 2 O2\n'
              'batch 2 length 34 orders O3\n' + OUT_AND_BACK + 'pick 3-4-L A 4 O3\n'
              'certificate '
              '{"capacity":3,"loads":[3,2,4],"nodes":[{"kind":"kept"}],"orders":[[[3,4]],[[3,4]],[[3,4]]],'
              '"units":5,"version":2}\n'
              'end wave\nrefills\nend refills\nstock\n3-4-L A 9 0 9\nend stock\nend\n')
    OPENING = days.Opening(SMALL, tables.Stock([tables.StockRow(tables.Location(3, 4, 'L'), 'A', 9)], ['A']),
                           {'O1': [('A', 3)], 'O2': [('A', 2)], 'O3': [('A', 1), ('A', 3)]},
                           {1: [('submit', 'W1', 'O1', 'O2', 'O3'), ('release', 'W1')]}, 3, 5)

    def fault(self, output, **changed):
        try:
            days.judge(self.OPENING._replace(**changed), output.encode())
        except days.Fault as why:
            return str(why)
        return None

    def test_a_day_with_carts_is_right(self):
        self.assertIsNone(self.fault(self.OUTPUT))

    def test_what_is_wrong_with_its_carts_is_found(self):
        as_one = self.OUTPUT.replace('orders O1 O2\n', 'orders O1 O2 O3\n')
        for output, words in ((as_one, 'batch 1 has more units than the cart'),
                              (self.OUTPUT.replace(' units 5 cost', ' cost'), 'heading'),
                              (self.OUTPUT.replace(' units 5 cost 68', ' cost 68 units 5'), 'heading'),
                              (self.OUTPUT.replace('[3,2,4]', '[1,1,1]'), 'another cart'),
                              (self.OUTPUT.replace('"units":5', '"units":6'), 'another cart'),
                              (self.OUTPUT.replace('"version":2', '"version":1'), 'out-of-range'),
                              (self.OUTPUT.replace('"loads":[3,2,4],', '')
                               .replace('"units":5,"version":2', '"version":1'), 'another cart')):
            self.assertRegex(self.fault(output) or 'nothing found', words)

    def test_the_same_day_with_other_units(self):
        self.assertRegex(self.fault(self.OUTPUT, units=4), 'heading')
        self.assertRegex(self.fault(self.OUTPUT, units=3), 'reply')
        self.assertRegex(self.fault(self.OUTPUT, units=None), 'heading')


class Crews(unittest.TestCase):
    """What a plan prints with --rules, --pickers and --root, and what may be wrong with it."""

    STOCK = tables.Stock([tables.StockRow(tables.Location(aisle, slot, 'L'), article, 5) for aisle, slot, article in (
        (1, 1, 'D'), (1, 4, 'A'), (2, 4, 'B'), (3, 1, 'C'))], list('DABC'))
    ORDERS = {'O1': [('A', 1)], 'O2': [('B', 1)], 'O3': [('C', 1)], 'O4': [('D', 1)]}
    PAIR, ALONE = by_hand.PAIR, by_hand.ALONE
    PAIR_SCRIPT = {1: [('submit', 'W1', 'O1', 'O2', 'O3'), ('release', 'W1')]}
    ALONE_SCRIPT = {1: [*PAIR_SCRIPT[1], ('submit', 'W2', 'O4'), ('release', 'W2'), ('cancel', 'W2')]}

    def fault(self, lines, scripts, capacity, rules=1, pickers=2, root=1):
        try:
            days.judge(days.Opening(SMALL, self.STOCK, self.ORDERS, scripts, capacity, None, rules, pickers, root),
                       '\n'.join(lines).encode())
        except days.Fault as why:
            return str(why)
        return None

    def of_pair(self, lines, **asked):
        return self.fault(lines, self.PAIR_SCRIPT, 2, **asked)

    def of_alone(self, lines, **asked):
        return self.fault(lines, self.ALONE_SCRIPT, 1, **asked)

    def test_they_are_right(self):
        self.assertIsNone(self.of_pair(self.PAIR))
        self.assertIsNone(self.of_alone(self.ALONE))
        self.assertIsNone(self.fault(by_hand.NOBODY, {}, 1, pickers=1))

    def test_none_stands_there_where_it_is_not_asked_for(self):
        plain = by_hand.plain(self.ALONE)
        no_rules, no_roots = by_hand.without(self.ALONE, 'rules '), by_hand.without(self.ALONE, 'root ')
        no_crew = by_hand.without(self.ALONE, 'crew ', 'picker ', 'end crew')
        for lines, asked in ((plain, {'rules': 0, 'pickers': 0, 'root': 0}), (no_crew, {'pickers': 0}),
                             (no_rules, {'rules': 0}), (no_roots, {'root': 0})):
            self.assertIsNone(self.of_alone(lines, **asked))
        for lines, asked, words in ((self.ALONE, {'rules': 0}, 'line 11: a line `rules'),
                                    (self.ALONE, {'pickers': 0}, 'a line `crew'), (no_crew, {}, 'no heading of a crew'),
                                    (plain, {'pickers': 0}, 'no line of rules'), (no_rules, {}, 'no line of rules'),
                                    (no_roots, {}, 'no bracket of W1'),
                                    (self.ALONE, {'root': 0}, 'line 21: a line `root'),
                                    (plain, {'rules': 0, 'pickers': 0}, 'no bracket of W1')):
            self.assertRegex(self.of_alone(lines, **asked) or 'nothing found', words)

    def test_what_is_wrong_with_the_rules_is_found(self):
        last = self.PAIR.index('rules s-shape 22 0 return 22 0 largest-gap 22 0')
        for old, new, words in (('38 12', '38 11', 'surplus of return'),
                                ('s-shape 26 0', 's-shape 24 0', 'no tour of the batch is shorter'),
                                ('38 12', '36 10', 'by return is 38 long'),
                                ('s-shape 26 0 return 38 12', 's-shape 38 12 return 26 0', 'by s-shape is 26 long')):
            self.assertRegex(self.of_pair([line.replace(old, new) for line in self.PAIR]) or 'nothing found', words,
                             new)
        self.assertRegex(self.of_pair(self.PAIR[:last] + self.PAIR[last + 1:]), 'no line of rules')
        self.assertRegex(self.of_pair(self.PAIR[:last] + self.PAIR[last:last + 1] + self.PAIR[last:]), 'a line `rules')
        self.assertRegex(self.of_pair(self.PAIR[:last - 1] + [self.PAIR[last], self.PAIR[last - 1]]
                                      + self.PAIR[last + 1:]), 'pick')

    def test_what_is_wrong_with_a_bracket_is_found(self):
        place = self.PAIR.index('root 1800 2880 over 60 open')
        before, line, after = self.PAIR[:place], self.PAIR[place], self.PAIR[place + 1:]
        self.assertIsNone(self.of_pair([*before, 'root 2880 2880 over 60 narrow', *after]))
        for told, words in ((['root 2880 1800 over 60 open'], 'is empty'),
                            (['root 1800 2880 over 60 narrow'], 'not narrow'),
                            (['root 2881 2881 over 60 open'], 'above its cost'),
                            (['root 2878 2879 over 60 narrow'], 'below its linear bound, which is 48'),
                            (['root 1799 1799 over 60 open'], 'below the duals of its root'),
                            ([], 'line 16: no bracket of W1'), ([line, line], 'line 16: a line `root'),
                            ([line.replace('root', 'roots')], 'no bracket of W1')):
            self.assertRegex(self.of_pair([*before, *told, *after]) or 'nothing found', words, told)
        for lines, words in (([*before[:-1], line, before[-1], *after], 'line 15: no certificate'),
                             ([*before, after[0], line, *after[1:]], 'line 16: no bracket of W1'),
                             ([*before[:4], line, *before[4:], *after], 'heading')):
            self.assertRegex(self.of_pair(lines) or 'nothing found', words)

    def test_a_bracket_begins_with_the_duals_of_the_root(self):
        own = '{"duals":[840,720,1320],"kind":"leaf","marks":"1100100","tight":[[0],[0,1],[0,2]]}'
        proven = [line.replace('{"kind":"kept"}', own).replace('bound 30 open', 'bound 48 proven')
                  for line in self.PAIR]
        near = [line.replace('root 1800 2880 over 60 open', 'root 2880 2880 over 60 narrow') for line in proven]
        self.assertIsNone(self.of_pair(near))
        self.assertRegex(self.of_pair(proven) or 'nothing found', 'begins below known duals')
        self.assertRegex(self.of_pair([line.replace('root 2880 2880', 'root 2879 2879') for line in near])
                         or 'nothing found', 'below the duals of its root')

    def test_the_script_judges_what_was_asked_for(self):
        head = 'desk,command,arguments\n'
        folder = runs.put(runs.Path(runs.shelf().name) / 'judged', {
            'layout.json': by_hand.LAYOUT,
            'stock.csv': 'location,article,on_hand\n1-1-L,D,5\n1-4-L,A,5\n2-4-L,B,5\n3-1-L,C,5\n',
            'orders.csv': 'order,article,quantity\nO1,A,1\nO2,B,1\nO3,C,1\nO4,D,1\n',
            'desks.csv': head + '1,submit,W1,O1,O2,O3\n1,release,W1\n'})
        output = '\n'.join(by_hand.PAIR).encode()
        shown, right = '--rules 1 --pickers 2 --root 1', 'right: 2 entries, 1 sheets and their brackets with 2 batches'
        short = 'wrong: line 15: 0 nodes of W1 have duals of their own where the budget of '
        for asked, status, told in (
                (shown + ' --budget 0', 0, right), (shown + ' --budget=111 --workers 3 --store 0 --capacity 2', 0,
                                                    right),
                (shown + ' --budget 0 --store 1', 0, right),
                ('--rules 1 --pickers 2 --budget 0', 1, 'wrong: line 15: a line `root'),
                (shown + ' --budget 112', 1, short + '112 pays for 1'),
                (shown + ' --nodes 1', 1, short + '112 pays for 1'),
                (shown + ' --nodes 16', 1, short + '1792 pays for 16'),
                (shown + ' --nodes 1000000000', 1, short + '112000000000 pays for 1000000000'),
                (shown + ' --nodes 1 --budget 0', 2, ''), (shown + ' --nodes 0', 2, ''),
                (shown + ' --workers 1', 1, short + '2000000 pays for 17857'),
                (shown, 0, right), (shown + ' --store 0', 1, short + '2000000 pays for 17857'),
                (shown + ' --budget 0 --capacity 3', 1, 'wrong: line 5: the capacity'),
                ('--rules 1 --pickers 2 --root 2', 2, ''),
                (shown + ' --budget ' + '9' * 5000, 2, ''), (shown + ' --workers 17', 2, ''),
                (shown + ' --store 2', 2, '')):
            done = runs.script('second-opinion', *runs.options(folder), *asked.split(), '-', given=output)
            self.assertEqual(status, done.status, (asked, done.output, done.errors))
            self.assertIn(told, done.output)
        words = ['second-opinion', 'plan', *runs.options(folder), *shown.split(), '-']
        self.assertIn(short + '2000000 pays for 17857', runs.script('wave', *words, given=output).output)
        self.assertIn(right, runs.script('wave', *words, '--budget', '0', given=output).output)

    def test_what_is_wrong_with_a_crew_is_found(self):
        heading = 'crew longest 36 least 31'
        first, second = 'picker 1 load 36 batches W1/1 W1/3', 'picker 2 load 26 batches W1/2 W2/1'
        settled = 'the crew is not settled'
        for crew, words in (
                (('crew longest 60 least 31', 'picker 1 load 60 batches W1/1 W1/2 W1/3',
                  'picker 2 load 2 batches W2/1'), settled),
                (('crew longest 48 least 31', 'picker 1 load 14 batches W1/1',
                  'picker 2 load 48 batches W1/2 W1/3 W2/1'), 'of 24 of picker 2'),
                (('crew longest 62 least 31', 'picker 1 load 62 batches W1/1 W1/2 W1/3 W2/1',
                  'picker 2 load 0 batches'), settled),
                (('crew longest 46 least 31', 'picker 1 load 16 batches W1/1 W2/1',
                  'picker 2 load 46 batches W1/2 W1/3'), 'of 24 of picker 2'),
                ((heading, first, 'picker 2 load 24 batches W1/2'), 'not each dealt'),
                ((heading, first, 'picker 2 load 40 batches W1/1 W1/2 W2/1'), 'not each dealt'),
                (('crew longest 50 least 31', 'picker 1 load 50 batches W1/1 W1/1 W1/3', second), 'not each dealt'),
                ((heading, 'picker 1 load 35 batches W1/1 W1/3', second), 'load of picker 1'),
                ((heading, first, second.replace('26', '0')), 'load of picker 2'),
                ((heading, 'picker 1 load 26 batches W1/2 W2/1', 'picker 2 load 36 batches W1/1 W1/3'), 'numbered'),
                ((heading, second, first), 'no line of picker 1'),
                ((heading, 'picker 0' + first[8:], 'picker 1' + second[8:]), 'no line of picker 1'),
                ((heading, first.replace('W1/1 W1/3', 'W1/3 W1/1'), second), 'order of the output'),
                ((heading, first.replace('W1/3', 'W1/4'), second), 'none of'),
                ((heading, first, second.replace('W2/1', 'W2/4')), 'none of'),
                ((heading, first.replace('W1/3', 'W1/03'), second), 'none of'),
                ((heading, first), 'no line of picker 2'), ((heading, second), 'no line of picker 1'),
                ((first, second), 'no heading'),
                ((heading, first, second, 'picker 3 load 0 batches'), 'end crew'),
                ((heading, first, second, second), 'end crew'),
                ((heading.replace('36', '26'), first, second), 'the longest load is 36'),
                ((heading.replace('31', '36'), first, second), 'least longest load is 31'),
                ((heading.replace('31', '30'), first, second), 'least longest load is 31'),
                ((heading, first + ' ', second), 'no line of picker 1')):
            place = self.ALONE.index(heading)
            self.assertRegex(self.of_alone([*self.ALONE[:place], *crew, *self.ALONE[place + 3:]]) or 'nothing found',
                             words, crew)

    def test_another_settled_crew_is_right(self):
        place = self.ALONE.index('crew longest 36 least 31')
        other = ('crew longest 38 least 31', 'picker 1 load 38 batches W1/1 W1/2', 'picker 2 load 24 batches W1/3 W2/1',
                 'end crew')
        self.assertIsNone(self.of_alone([*self.ALONE[:place], *other, *self.ALONE[place + 4:]]))

    def test_a_picker_without_batches_has_a_line(self):
        three = [line.replace('least 31', 'least 24').replace('longest 36', 'longest 24') for line in self.ALONE]
        place = three.index('crew longest 24 least 24')
        end = three[place + 3:]
        for pickers, crew in ((3, ('picker 1 load 16 batches W1/1 W2/1', 'picker 2 load 24 batches W1/2',
                                   'picker 3 load 22 batches W1/3')),
                              (6, ('picker 1 load 14 batches W1/1', 'picker 2 load 24 batches W1/2',
                                   'picker 3 load 22 batches W1/3', 'picker 4 load 2 batches W2/1',
                                   'picker 5 load 0 batches', 'picker 6 load 0 batches'))):
            self.assertIsNone(self.of_alone([*three[:place + 1], *crew, *end], pickers=pickers), pickers)
            self.assertRegex(self.of_alone([*three[:place + 1], *crew[:-1], *end], pickers=pickers),
                             'no line of picker %d' % pickers)
        early = ('picker 1 load 14 batches W1/1', 'picker 2 load 0 batches', 'picker 3 load 24 batches W1/2',
                 'picker 4 load 24 batches W1/3 W2/1')
        self.assertRegex(self.of_alone([*three[:place + 1], *early, *end], pickers=4), 'numbered')

    def test_the_section_stands_between_the_refills_and_the_stock(self):
        place = self.ALONE.index('crew longest 36 least 31')
        crew, rest = self.ALONE[place:place + 4], self.ALONE[:place] + self.ALONE[place + 4:]
        for before, words in (('refills', "'refills' is due"), ('end refills', "'end refills' is due"),
                              ('end stock', 'no heading of a crew'), ('end', 'no heading of a crew')):
            at = rest.index(before)
            self.assertRegex(self.of_alone(rest[:at] + crew + rest[at:]) or 'nothing found', words, before)
        self.assertRegex(self.of_alone(self.ALONE[:place] + crew + crew + self.ALONE[place + 4:]), 'a line `crew')


class Brackets(unittest.TestCase):
    """Linear bounds, and what may be wrong with the line of a bracket."""

    @staticmethod
    def wave(orders, capacity, units=None, loads=None, layout=SMALL):
        return certificates.Wave(layout, certificates.Certificate(list(map(tours.gathered, orders)), capacity, units,
                                                                  loads, []))

    @staticmethod
    def cover(wave):
        return roots.cheapest_cover(wave, roots.permitted(wave))

    def fault(self, line, wave=None, cost=68, duals=3060, rounds=None):
        """What is wrong with a line of three orders at one place, two to a cart, whose linear bound is 51."""
        try:
            roots.judge_root(days.Lines(line.encode() + b'\n'), 'W1', wave or self.wave([[(3, 4)]] * 3, 2), cost, duals,
                             rounds)
        except days.Fault as why:
            return str(why)
        return None

    def test_linear_bounds_worked_by_hand(self):
        three = [[(1, 4)], [(2, 4)], [(3, 1)]]
        for orders, capacity, cart, due in ((three, 1, (), 60), (three, 2, (), 48), (three, 3, (), 38),
                                            ([[(3, 4)]] * 3, 2, (5, [3, 3, 3]), 102),
                                            ([[(3, 4)]] * 3, 3, (5, [3, 2, 4]), 68),
                                            ([[(3, 4)]] * 3, 3, (5, [3, 2, 2]), 51), ([[]], 1, (), 0)):
            self.assertEqual(due, self.cover(self.wave(orders, capacity, *cart)).cost(), (orders, capacity, cart))

    def test_orders_at_one_place_share_a_cart_evenly(self):
        for orders in range(1, 9):
            for capacity in range(1, 9):
                self.assertEqual(max(Fraction(34), Fraction(34 * orders, capacity)),
                                 self.cover(self.wave([[(3, 4)]] * orders, capacity)).cost())

    def test_duals_show_that_no_cover_is_cheaper(self):
        dice = random.Random(3)
        for _ in range(300):
            orders, capacity, units = dice.randint(1, 7), dice.randint(1, 8), dice.choice((None, 5))
            lines = [[(dice.randint(1, 3), dice.randint(1, 4), 1) for _ in range(dice.randint(1, 3))]
                     for _ in range(orders)]
            loads = units and [dice.randint(0, 5) for _ in lines]
            wave = self.wave([[line[:2] for line in some] for some in lines], capacity, units, loads)
            cover = self.cover(wave)
            duals, weights = cover.duals(), {cover.batches[place]: weight for place, weight in cover.weights().items()}
            self.assertGreaterEqual(min(weights.values()), 0)
            for order in range(orders):
                self.assertEqual(cover.over, sum(weight for batch, weight in weights.items() if order in batch))
            for batch in roots.permitted(wave):
                self.assertLessEqual(sum(duals[order] for order in batch), cover.over * wave.length(batch))
            self.assertEqual(cover.cost(), Fraction(sum(duals), cover.over))
            if units is None:
                self.assertLessEqual(cover.cost(), making.cheapest(SMALL, lines, capacity))

    def test_all_batches_that_a_cart_takes_are_permitted(self):
        self.assertEqual([(0,), (1,), (2,), (0, 1), (0, 2), (1, 2)], roots.permitted(self.wave([[(1, 1)]] * 3, 2)))
        self.assertEqual([(0,), (1,), (2,), (0, 1)], roots.permitted(self.wave([[(1, 1)]] * 3, 3, 5, [3, 2, 4])))
        many = self.wave([[(3, 4)]] * 19, 3)
        self.assertEqual((None, 1159), (roots.permitted(many), len(roots.permitted(many, 1159))))

    def test_a_right_line(self):
        for line in ('6120 6120 over 120 narrow', '51 51 over 1 narrow', '6120 6125 over 120 narrow',
                     '3060 4080 over 60 open', '6120 8160 over 120 open',
                     '%d %d over %d narrow' % (51 * 10 ** 30, 51 * 10 ** 30 + 1, 10 ** 30)):
            self.assertIsNone(self.fault('root ' + line), line)

    def test_what_is_wrong_with_a_line_is_found(self):
        for line, words in (('6120 6119 over 120 narrow', 'is empty'), ('4080 3060 over 60 open', 'is empty'),
                            ('6114 6120 over 120 narrow', 'not narrow'),
                            ('3060 4080 over 60 narrow', 'not narrow'),
                            ('6121 6121 over 120 narrow', 'above its linear bound, which is 51'),
                            ('52 68 over 1 open', 'above its linear bound'), ('69 69 over 1 open', 'above its cost'),
                            ('50 50 over 1 open', 'below the duals of its root')):
            self.assertRegex(self.fault('root ' + line) or 'nothing found', words, line)
        apart = self.wave([[(3, 4)]] * 3, 2, 5, [3, 3, 3])
        self.assertRegex(self.fault('root 6120 6120 over 120 narrow', apart, 102),
                         'below its linear bound, which is 102')

    def test_a_bracket_is_no_wider_than_what_is_known(self):
        for line, words in (('0 4080 over 60 open', 'begins below known duals'),
                            ('3059 4080 over 60 open', 'begins below known duals'),
                            ('6119 6120 over 120 narrow', 'begins below known duals'),
                            ('3060 4081 over 60 open', 'ends above its cost')):
            self.assertRegex(self.fault('root ' + line, duals=0) or 'nothing found', words, line)

    def test_an_open_bracket_is_not_narrow(self):
        for line in ('6120 6120 over 120 open', '51 51 over 1 open', '6120 6125 over 120 open'):
            self.assertRegex(self.fault('root ' + line) or 'nothing found', 'open, and meets the test of narrow', line)

    def test_an_open_bracket_has_fewer_rounds_than_there_are_batches(self):
        for rounds, words in ((0, None), (5, None), (None, None),
                              (6, 'is open, where its budget pays for as many rounds')):
            found = self.fault('root 3060 4080 over 60 open', rounds=rounds)
            self.assertTrue(found is None if words is None else words in str(found), (rounds, found))

    def test_a_line_of_another_form_is_found(self):
        for line in ('6120 6120 over 0 narrow', '-1 6120 over 120 open', '6120 -6120 over 120 open',
                     '6120 6120 over -120 open', '06120 6120 over 120 open', '6120 6120 over 120',
                     '6120 6120 over 120 wide', '6120 6120 over 120 narrow ', '6120 6120 120 narrow',
                     '6120 over 120 narrow', '6120.0 6120 over 120 open', ''):
            self.assertRegex(self.fault('root ' + line) or 'nothing found', 'no bracket of W1', line)
        self.assertRegex(self.fault('end wave'), 'no bracket of W1')

    def test_of_a_large_wave_the_plain_relations_are_judged(self):
        large = self.wave([[(3, 4)]] * 64, 3)
        for line, words in (('43520 43520 over 60 narrow', None), ('44880 44880 over 60 narrow', None),
                            ('44881 44881 over 60 open', 'above its cost'),
                            ('43519 43519 over 60 open', 'below the duals'),
                            ('43520 43584 over 60 narrow', 'not narrow'), ('43520 43583 over 60 narrow', None)):
            found = self.fault('root ' + line, large, 22 * 34, 64 * 680)
            self.assertTrue(found is None if words is None else words in str(found), (line, found))


class LaterLines(unittest.TestCase):
    """Brackets beside carts, rules and pickers; and entries that were stored before, which nobody tells."""

    STOCK = tables.Stock([tables.StockRow(tables.Location(1, 1, 'L'), 'A', 5)], ['A'])

    def fault(self, output, scripts=None, units=2, shown=(1, 2, 1), stored=False):
        scripts = scripts or {1: [('submit', 'W1', 'O1'), ('release', 'W1')]}
        try:
            days.judge(days.Opening(SMALL, self.STOCK, {'O1': [('A', 2)]}, scripts, 1, units, *shown), output.encode(),
                       stored)
        except days.Fault as why:
            return str(why)
        return None

    def test_they_are_right(self):
        self.assertIsNone(self.fault(LATER))
        self.assertIsNone(self.fault(LATER.replace('1200 1200 over 600', '2400 2400 over 1200')))

    def test_what_is_wrong_with_them_is_found(self):
        for old, new, words in ((' units 2 cost', ' cost', 'heading'), ('"loads":[2]', '"loads":[1]', 'cart'),
                                ('return 2 0', 'return 2 1', 'surplus'),
                                ('root 1200 1200', 'root 1201 1201', 'above its cost'),
                                ('root 1200 1200', 'root 1200 1201', 'ends above its cost'),
                                ('root 1200 1200', 'root 1200 1210', 'narrow'),
                                ('root 1200 1200', 'root 1200 1199', 'empty')):
            self.assertRegex(self.fault(LATER.replace(old, new, 1)) or 'nothing found', words, old)

    def test_an_order_over_the_cart_is_refused(self):
        output = ('journal\n0 1 submit W1 O1 -> refused over-cart O1 2\n1 1 release W1 -> refused unknown-wave\n'
                  'end journal\n' + STORED.split('end journal\n')[1])
        self.assertIsNone(self.fault(output, units=1, shown=()))
        self.assertRegex(self.fault(output, units=2, shown=()), 'reply')

    def test_stored_entries_have_no_sheets(self):
        new = {1: [('cancel', 'W1')]}
        self.assertIsNone(self.fault(STORED, new, None, (), stored=True))
        self.assertRegex(self.fault(STORED, new, None, ()), '2 commands more')
        self.assertRegex(self.fault(STORED, {1: [('allot', 'W1')]}, None, (), stored=True), 'desk 1')


class Books(unittest.TestCase):
    def test_an_order_is_over_the_cart_by_all_its_lines(self):
        stock = tables.Stock([tables.StockRow(tables.Location(1, 1, 'L'), 'A', 5)], ['A'])
        book = Book(stock, {'O1': [('A', 1), ('A', 1)]}, 1)
        self.assertEqual('refused over-cart O1 2', book.step(('submit', 'W1', 'O1')).reply)
        self.assertEqual('refused unknown-order O9', book.step(('submit', 'W1', 'O9', 'O1')).reply)
        self.assertEqual('submitted', Book(stock, {'O1': [('A', 1), ('A', 1)]}, 2).step(('submit', 'W1', 'O1')).reply)


if __name__ == '__main__':
    unittest.main()
