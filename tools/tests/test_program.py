"""Tests with the program: made days and example days judged by the second opinion, and faults planted behind the
program that `tools/fuzz` is to find."""

import os
import re
import sys
import unittest
from pathlib import Path

import by_hand
import runs
from opinion import making

# Each fault: its name, the mode in which it shows, what is looked for, what stands in its place, and the status.
FAULTS = [
    ('costs one too high', 'plan', rb'cost (\d+)', 'b"cost %d" % (int(found[1]) + 1)', 'done.returncode'),
    ('tours that leave the depot', 'plan', rb'^(tour .*) \S+$', 'found[1]', 'done.returncode'),
    ('picks of one unit more', 'plan', rb'^(pick \S+ \S+) (\d+)', 'b"%s %d" % (found[1], int(found[2]) + 1)',
     'done.returncode'),
    ('a stock that is one off', 'plan', rb'^(\S+ \S+) (\d+) (\d+) (\d+)$',
     'b"%s %d %s %s" % (found[1], int(found[2]) + 1, found[3], found[4])', 'done.returncode'),
    ('refusals that name the wrong row', 'plan', rb'^(refused \S+ row) (\d+)',
     'b"%s %d" % (found[1], int(found[2]) + 1)', 'done.returncode'),
    ('a check that takes every broken tree', 'check', rb'^refused certificate node.*$', 'b"bound 51"',
     '0 if done.returncode == 6 else done.returncode'),
    ('an audit that takes every journal', 'audit', rb'^refused journal .*$', 'b"audit 1 entries"',
     '0 if done.returncode == 6 else done.returncode'),
    ('a check that rounds up once more', 'priced', rb'^bound (\d+)$', 'b"bound %d" % (int(found[1]) + 2)',
     'done.returncode'),
    ('a check that takes every broken tree of the third form', 'priced', rb'^refused certificate node.*$', 'b"bound 0"',
     '0 if done.returncode == 6 else done.returncode'),
    ('a check that takes cuts for a wrong form', 'priced', rb'^refused certificate node 0 bad-cuts$',
     'b"refused certificate bad-shape"', 'done.returncode'),
    ('a summary with a unit more', 'make', rb'units (\d+)', 'b"units %d" % (int(found[1]) + 1)', 'done.returncode'),
]

# Those that only waves with carts show, which are few among the runs.
CART_FAULTS = [
    ('sheets without the units of their carts', 'plan', rb'^(wave .* capacity \d+) units \d+', 'found[1]',
     'done.returncode'),
    ('a cart of one unit more', 'plan', rb'^(certificate .*"units":)(\d+)', 'b"%s%d" % (found[1], int(found[2]) + 1)',
     'done.returncode'),
]

# Those that only plans with rules, pickers or brackets show.
SHOWN_FAULTS = [
    ('a surplus of one more', 'plan', rb'^(rules s-shape \d+) (\d+)', 'b"%s %d" % (found[1], int(found[2]) + 1)',
     'done.returncode'),
    ('a walk that is longer by one', 'plan', rb'^(rules s-shape) (\d+) (\d+)',
     'b"%s %d %d" % (found[1], int(found[2]) + 1, int(found[3]) + 1)', 'done.returncode'),
    ('a load of one more', 'plan', rb'^(picker 1 load) (\d+)', 'b"%s %d" % (found[1], int(found[2]) + 1)',
     'done.returncode'),
    ('a crew without its last picker', 'plan', rb'^picker .*\n(end crew\n)', 'found[1]', 'done.returncode'),
    ('brackets whose sides change places', 'plan', rb'^root (\d+) (\d+)', 'b"root %s %s" % (found[2], found[1])',
     'done.returncode'),
    ('brackets that are all narrow', 'plan', rb'^(root .*) open', 'b"%s narrow" % found[1]', 'done.returncode'),
    ('brackets that are all open', 'plan', rb'^(root .*) narrow', 'b"%s open" % found[1]', 'done.returncode'),
    ('brackets that lie higher by one', 'plan', rb'^root (\d+) (\d+) over (\d+)',
     'b"root %d %d over %s" % (int(found[1]) + int(found[3]), int(found[2]) + int(found[3]), found[3])',
     'done.returncode'),
    ('brackets that lie lower by one', 'plan', rb'^root (\d+) (\d+) over (\d+)',
     'b"root %d %d over %s" % (max(0, int(found[1]) - int(found[3])), max(0, int(found[2]) - int(found[3])), found[3])',
     'done.returncode'),
    ('brackets before their certificates', 'plan', rb'^(certificate .*\n)(root .*\n)', 'found[2] + found[1]',
     'done.returncode'),
    ('sheets without their brackets', 'plan', rb'^root .*\n', 'b""', 'done.returncode'),
]


# Those that only days with a store show: in what is printed of it, and in what is left of it.
LEFT = ('(__import__("os").path.exists("waveplan.store") and __import__("os").truncate("waveplan.store", %s)) '
        'or done.returncode')
STORE_FAULTS = [
    ('journals without their first entry', 'store', rb'^journal\n0 .*\n', 'b"journal\\n"', 'done.returncode'),
    ('records that are refused one too late', 'store', rb'^refused store record (\d+)',
     'b"refused store record %d" % (int(found[1]) + 1)', 'done.returncode'),
    ('stored replies that are right whatever they are', 'store',
     rb'^(refused store entry \d+ printed) (.*) right (.*)$', 'b"%s %s right %s" % (found[1], found[3], found[2])',
     'done.returncode'),
    ('refused stores that are told as a fault', 'store', rb'^refused store .*$', 'b"store fault"',
     '7 if done.stdout.startswith(b"refused store") else done.returncode'),
    ('a store that loses what is there', 'store', rb'^never$', 'b""', LEFT % '0'),
    ('a store without its closed byte', 'store', rb'^never$', 'b""',
     LEFT % 'max(0, __import__("os").path.getsize("waveplan.store") - 1)'),
]


SHOWN_DAY = ('--capacity', '2', '--rules', '1', '--pickers', '4', '--root', '1')


class Days(unittest.TestCase):
    def judged(self, folder, day, *more):
        return runs.script('second-opinion', *runs.options(folder), *more, day)

    def test_example_days_are_right(self):
        for example, *words in (('one-day', '--capacity', '3'), ('one-wave', '--capacity', '2'),
                                ('three-desks', '--capacity', '2'),
                                ('three-desks', '--capacity', '2', '--units', '12'),
                                ('small-carts', '--capacity', '3', '--units', '30'),
                                ('four-pickers', *SHOWN_DAY),
                                ('one-day', '--capacity', '3', '--rules', '1', '--pickers', '3', '--root', '1'),
                                ('three-desks', '--capacity', '2', '--pickers', '100'),
                                ('packing-at-the-back', '--capacity', '2', '--rules', '1', '--root', '1'),
                                ('small-carts', '--capacity', '3', '--units', '30', '--root', '1')):
            done = self.judged(runs.EXAMPLES / example, runs.day_of(example, *words), *words)
            self.assertEqual((0, ''), (done.status, done.errors), done.output)

    def test_brackets_without_a_round_are_right(self):
        words = ('--capacity', '3', '--root', '1')
        done = self.judged(runs.EXAMPLES / 'one-day', runs.day_of('one-day', *words, '--budget', '0'), *words)
        self.assertEqual((0, ''), (done.status, done.errors), done.output)

    def test_a_plan_short_of_its_budget_is_wrong(self):
        """A program that ignores the budget, and one that tells a narrow bracket as open."""
        words, options = ['--capacity', '3', '--root', '1'], runs.options(runs.EXAMPLES / 'one-day')
        short = runs.planned(runs.EXAMPLES / 'one-day', *words, '--budget', '0')
        for budget, due in ((['--budget', '0'], 0), (['--budget', '5000000'], 1), (['--store', '0'], 1), ([], 0)):
            judged = runs.script('second-opinion', *options, *words, *budget, '-', given=short.bytes)
            self.assertEqual(due, judged.status, (budget, judged.output))
            self.assertRegex(judged.output, 'where the budget of .* pays for' if due else 'right: ')
        right = runs.planned(runs.EXAMPLES / 'one-day', *words).bytes
        for told, due in ((right, 0), (right.replace(b' narrow\n', b' open\n'), 1)):
            for mode in (['plan'], []):
                judged = runs.script('second-opinion', *mode, *options, *words, '-', given=told)
                self.assertEqual(due, judged.status, judged.output)
                self.assertRegex(judged.output, 'is open, and meets the test of narrow' if due else 'right: ')

    def test_the_plan_of_other_carts_is_wrong(self):
        day = runs.day_of('small-carts', '--capacity', '3', '--units', '30')
        for more, due in (((), 'submitted'), (('--units', '40'), 'submitted'), (('--units', '29'), 'units 29')):
            done = self.judged(runs.EXAMPLES / 'small-carts', day, '--capacity', '3', *more)
            self.assertEqual(1, done.status)
            self.assertIn(due, done.output)

    def test_a_cart_parts_what_would_go_together(self):
        day = runs.day_of('small-carts', '--capacity', '3', '--units', '30').read_text()
        self.assertIn('0 1 submit WED-08.00 SO-30101 SO-30102 SO-30103 SO-30104 SO-30105 SO-30106 SO-30107 -> refused '
                      'over-cart SO-30104 40\n', day)
        self.assertIn('wave WED-08.00 entry 2 orders 6 capacity 3 units 30 cost 19460 bound 19460 proven\n', day)
        self.assertIn('"units":30,"version":2}\n', day)
        self.assertEqual(['SO-30101 SO-30105', 'SO-30102', 'SO-30103 SO-30106 SO-30107'],
                         re.findall('^batch .* orders (.*)$', day, re.MULTILINE))

    def test_what_is_told_besides_adds_its_lines_and_changes_no_other(self):
        plain = runs.example_day().read_text().split('\n')
        for rules, pickers, root in ('000', '100', '030', '001', '131'):
            shown = runs.day_of('one-day', '--capacity', '3', '--rules', rules, '--pickers', pickers, '--root',
                                root).read_text().split('\n')
            self.assertEqual(plain, by_hand.plain(shown))
            batches, waves, *told = (sum(line.startswith(word + ' ') for line in shown)
                                     for word in ('batch', 'wave', 'rules', 'picker', 'root'))
            self.assertEqual([int(rules) * batches, int(pickers), int(root) * waves], told)

    def test_each_sheet_has_its_bracket_behind_its_certificate(self):
        day = runs.day_of('one-day', '--capacity', '3', '--rules', '1', '--pickers', '3', '--root', '1').read_text()
        found = re.findall('(?m)^wave .* orders ([0-9]+) .*\n(?:(?!end wave).*\n)*certificate .*\nroot ([0-9]+) '
                           '([0-9]+) over ([0-9]+) narrow\nend wave$', day)
        self.assertEqual(3, len(found))
        for orders, low, high, over in (map(int, each) for each in found):
            self.assertLess(60 * (high - low), orders * over)

    def test_what_is_told_of_the_day_by_hand(self):
        files = {'layout.json': by_hand.LAYOUT,
                 'stock.csv': 'location,article,on_hand\n1-1-L,D,5\n1-4-L,A,5\n2-4-L,B,5\n3-1-L,C,5\n',
                 'orders.csv': 'order,article,quantity\nO1,A,1\nO2,B,1\nO3,C,1\nO4,D,1\n'}
        head, first = 'desk,command,arguments\n', '1,submit,W1,O1,O2,O3\n1,release,W1\n'
        second = '1,submit,W2,O4\n1,release,W2\n1,cancel,W2\n'
        for lines, desks, capacity, pickers in ((by_hand.PAIR, first, '2', '2'),
                                                (by_hand.ALONE, first + second, '1', '2'),
                                                (by_hand.NOBODY, '', '1', '1')):
            folder = runs.put(Path(runs.shelf().name) / 'by-hand', {**files, 'desks.csv': head + desks})
            done = runs.planned(folder, '--capacity', capacity, '--budget', '0', '--rules', '1', '--pickers', pickers,
                                '--root', '1')
            kinds = ('batch ', 'tour ', 'pick ', 'rules ', 'root ', 'crew ', 'picker ', 'end')
            self.assertEqual([line for line in lines if line.startswith(kinds)],
                             [line for line in done.output.split('\n') if line.startswith(kinds)])

    def test_a_day_with_a_crew_is_audited_and_checked(self):
        folder, day = runs.EXAMPLES / 'four-pickers', runs.day_of('four-pickers', *SHOWN_DAY)
        self.assertEqual('audit 4 entries\n', runs.waveplan('audit', *runs.options(folder, runs.FILES[:3]), '--journal',
                                                            day).output)
        self.assertRegex(day.read_text(), '(?m)^crew longest 10960 least 10830$')
        certificates = re.findall('^wave .* bound ([0-9]+) (?:.*\n)*?certificate (.*)$', day.read_text(), re.MULTILINE)
        self.assertEqual(2, len(certificates))
        for bound, certificate in certificates:
            place = runs.put(Path(runs.shelf().name) / 'checked',
                             {'certificate.json': certificate}) / 'certificate.json'
            self.assertEqual('bound %s\n' % bound, runs.waveplan('check', '--layout', folder / 'layout.json',
                                                                 '--certificate', place).output)

    def test_an_audit_for_carts_is_judged(self):
        folder, day = runs.EXAMPLES / 'small-carts', runs.day_of('small-carts', '--capacity', '3', '--units', '30')
        options = (*runs.options(folder, runs.FILES[:3]), '--journal', day)
        for units, status in ((('--units', '30'), 0), ((), 6)):
            done = runs.waveplan('audit', *options, *units)
            self.assertEqual(status, done.status, done.output)
            judged = runs.script('second-opinion', *options, *units, '-', given=done.bytes)
            self.assertEqual(0, judged.status, judged.output)

    def test_the_plan_of_another_capacity_is_wrong(self):
        done = self.judged(runs.EXAMPLES / 'one-day', runs.example_day(), '--capacity', '2')
        self.assertEqual(1, done.status)
        self.assertIn('the capacity is 3', done.output)

    def test_a_made_day_of_2000_orders(self):
        folder = runs.put(Path(runs.shelf().name) / 'made', making.files(1, 60, 2000, 4, 20))
        done = runs.planned(folder, '--capacity', '3', '--budget', '120000')
        self.assertEqual(0, done.status)
        (folder / 'day.txt').write_bytes(done.bytes)
        judged = self.judged(folder, folder / 'day.txt', '--capacity', '3')
        self.assertEqual(0, judged.status, judged.output)
        self.assertRegex(judged.output, r'right: 200 entries, 100 sheets with 7\d\d batches')
        made = runs.waveplan(*'make --number 1 --aisles 60 --orders 2000 --desks 4 --wave 20 --capacity 3 '
                             '--budget 120000'.split())
        costs = [int(found) for found in re.findall(r'^wave .* cost (\d+)', done.output, re.MULTILINE)]
        self.assertIn('cost %d bound' % sum(costs), made.output)
        self.floor(folder)

    def test_each_wave_has_its_own_nodes(self):
        """A day of waves of 40 and of 10 orders: each works for as many nodes of its own price."""
        folder = runs.put(Path(runs.shelf().name) / 'nodes', making.files(2, 60, 50, 1, 40))
        for nodes in ('1', '3'):
            done = runs.planned(folder, '--capacity', '2', '--nodes', nodes)
            self.assertEqual(0, done.status, done.output)
            self.assertEqual(['40', '10'], re.findall(r'^wave \S+ entry \d+ orders (\d+)', done.output, re.MULTILINE))
            judged = runs.script('second-opinion', *runs.options(folder), '--capacity', '2', '--nodes', nodes, '-',
                                 given=done.bytes)
            self.assertEqual(0, judged.status, judged.output)

    def floor(self, folder):
        """The scripts for the floor over the great day."""
        page = runs.script('sheets', '--layout', folder / 'layout.json', folder / 'day.txt')
        self.assertEqual((0, ''), (page.status, page.errors))
        self.assertEqual(page.output.count('<section id="cart-'),
                         len(re.findall('^batch ', (folder / 'day.txt').read_text(), re.MULTILINE)))
        for words in (('to-csv', folder / 'day.txt', folder / 'tables'), ('to-json', folder / 'day.txt'),
                      ('compare', folder / 'day.txt', folder / 'day.txt'),
                      ('continue', folder / 'day.txt'), ('closing-stock', folder / 'day.txt', '--free')):
            self.assertEqual(0, runs.script(*words).status, words)
        for kind in ('stock', 'orders', 'desks'):
            self.assertEqual((folder / (kind + '.csv')).read_text(),
                             runs.script('import', kind, folder / (kind + '.csv')).output)

    def test_days_of_one_slot_and_of_one_aisle(self):
        for name, size, capacity in (('slot', (3, 1, 9, 1, 9), '4'), ('aisles', (5, 4, 12, 3, 6), '8')):
            folder = runs.put(Path(runs.shelf().name) / name, making.files(*size))
            done = runs.planned(folder, '--capacity', capacity)
            self.assertEqual(0, done.status, done.output)
            (folder / 'day.txt').write_bytes(done.bytes)
            self.assertEqual(0, self.judged(folder, folder / 'day.txt').status)

    def test_a_check_and_an_audit_are_judged(self):
        folder = runs.EXAMPLES / 'one-certificate'
        options = ('--layout', folder / 'layout.json', '--certificate', folder / 'certificate.json', '-')
        self.assertEqual(0, runs.script('second-opinion', *options, given=b'bound 68\n').status)
        self.assertEqual(1, runs.script('second-opinion', *options, given=b'bound 69\n').status)
        day = runs.EXAMPLES / 'one-day'
        options = (*runs.options(day, runs.FILES[:3]), '--journal', runs.example_day(), '-')
        self.assertEqual(0, runs.script('second-opinion', *options, given=b'audit 12 entries\n').status)
        self.assertEqual(1, runs.script('second-opinion', *options, given=b'audit 11 entries\n').status)

    def test_a_refusal_is_judged(self):
        day = runs.EXAMPLES / 'one-day'
        options = ('--layout', day / 'stock.csv', *runs.options(day)[2:], '-')
        self.assertEqual(0, runs.script('second-opinion', *options, given=b'refused layout not-json\n').status)
        self.assertEqual(1, runs.script('second-opinion', *options, given=b'refused layout not-object\n').status)


class Fuzzing(unittest.TestCase):
    @classmethod
    def setUpClass(cls):
        """What a run that is wrong leaves goes with the process."""
        kept = os.environ.get('TMPDIR')
        os.environ['TMPDIR'] = runs.shelf().name
        cls.addClassCleanup(lambda: os.environ.update(TMPDIR=kept) if kept else os.environ.pop('TMPDIR'))

    def fuzzed(self, program, mode, count, *more):
        return runs.script('fuzz', program, '--mode', mode, '--runs', count, *more)

    def planted(self, place, fault):
        """What is found of a fault that is planted behind the program."""
        _, mode, pattern, new, status = fault
        program = Path(runs.shelf().name) / ('planted-%d' % place)
        program.write_text(runs.PLANTED % {'program': runs.PROGRAM, 'pattern': pattern, 'new': new,
                                      'status': status})
        program.chmod(0o755)
        count = 80 if place < len(FAULTS) else 400
        return self.fuzzed(program, mode, count, '--to-wrong', '--corpus', runs.PROGRAM)


def test_that_nothing_is_wrong(mode):
    """A test that nothing is wrong with the program in this mode."""
    def test(self):
        done = self.fuzzed(runs.PROGRAM, mode, 60)
        self.assertEqual(0, done.status, done.output + done.errors)
    return test


def test_that_it_is_found(place, fault):
    """A test that this fault, planted behind the program, is found."""
    def test(self):
        done = self.planted(place, fault)
        self.assertEqual(1, done.status, done.output + done.errors)
        self.assertRegex(done.output, 'wrong: %s run' % fault[1])
    return test


# A test for each mode and for each fault, so that they run beside each other.
for known in ('plan', 'check', 'audit', 'make', 'store', 'words', 'priced'):
    setattr(Fuzzing, 'test_nothing_is_wrong_in_mode_%s' % known, test_that_nothing_is_wrong(known))
for number, known in enumerate(FAULTS + CART_FAULTS + SHOWN_FAULTS + STORE_FAULTS):
    name = re.sub(r'\W+', '_', known[0])
    setattr(Fuzzing, 'test_it_finds_%02d_%s' % (number, name), test_that_it_is_found(number, known))
del test_that_nothing_is_wrong, test_that_it_is_found


if __name__ == '__main__':
    unittest.main()
