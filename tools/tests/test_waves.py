"""Tests of the program `waves`: rows that were worked out by hand, each judged by the plain program too."""

import itertools
import os
import re
import subprocess
import unittest
from pathlib import Path

import by_hand
import runs

STOCK = 'location,article,on_hand\n1-1-L,A,5\n3-4-L,B,1\n'
HEADING = 'order,article,quantity\n'
ORDERS = HEADING + 'O1,A,2\nO2,B,1\nO3,A,2\nO4,B,1\nO5,A,2\n'
OPEN = 'order,group,rank\n'
W1 = 'journal\n0 1 submit W1 O1 -> submitted\n1 1 release W1 -> released\nend journal\n'
EMPTY = 'desks\ndesk,command,arguments\nend desks\nwaves\nend waves\nleft\nend left\nend\n'
PLACES = itertools.count()


def lines_of(output, name):
    """The lines of a section."""
    return output.split(name + '\n', 1)[1].split('end ' + name + '\n')[0].splitlines()


class Runs(unittest.TestCase):
    """Runs over the files of the smallest example, and others in their places."""

    def folder(self, **files):
        """A folder with the files of the smallest example, and those that are given, by the options that name them."""
        texts = {'layout': by_hand.LAYOUT, 'stock': STOCK, 'orders': ORDERS, **files}
        return runs.put(Path(runs.shelf().name) / ('waves-%d' % next(PLACES)), texts), list(texts)

    def run_waves(self, *more, wave=2, capacity=2, **files):
        """A run, and its folder and words."""
        folder, names = self.folder(**files)
        words = ['--wave', str(wave), '--capacity', str(capacity), *more]
        for name in names:
            words += ['--' + name, name]
        return runs.waves(*words, folder=folder), folder, words

    def sent(self, *more, **files):
        """The output of a run that is done, which the plain program finds right."""
        done, folder, words = self.run_waves(*more, **files)
        self.assertEqual((0, ''), (done.status, done.errors), done.output)
        judged = runs.script('second-opinion', 'waves', *words, '-', given=done.bytes, folder=folder)
        self.assertEqual(0, judged.status, judged.output + judged.errors + done.output)
        return done.output

    def refused(self, status, line, *more, **files):
        done, _, _ = self.run_waves(*more, **files)
        self.assertEqual((status, line + '\n', ''), (done.status, done.output, done.errors))


@unittest.skipUnless(runs.WAVES, 'the program waves is not named')
class Waves(Runs):
    def test_the_smallest_example(self):
        output = self.sent()
        self.assertEqual(['O4 short B 1 0', 'O5 short A 2 1'], lines_of(output, 'left'))
        self.assertEqual(2, len(lines_of(output, 'waves')))
        data = runs.TOP / 'crates' / 'waves'
        done = runs.waves(*(data / 'args').read_text().split()[1:], folder=data / 'data')
        self.assertEqual((0, (data / 'stdout').read_text()), (done.status, done.output))

    def test_a_lower_rank_gets_stock_first(self):
        listed = OPEN + 'O1,W,0\nO2,W,1\nO3,W,0\nO4,W,0\nO5,W,0\n'
        self.assertEqual(['O2 short B 1 0', 'O5 short A 2 1'], lines_of(self.sent(open=listed), 'left'))
        output = self.sent(open=OPEN + 'O2,W,1\nO4,W,0\n')
        self.assertEqual(['wave W.1 orders 1 ranks 0 0 start 34'], lines_of(output, 'waves'))
        self.assertEqual(['O2 short B 1 0'], lines_of(output, 'left'))

    def test_ranks_part_waves(self):
        output = self.sent(open=OPEN + 'O3,W,7\nO2,W,3\nO1,W,1430\n')
        self.assertEqual(['O2,O3', 'O1'], [line.split(',', 3)[3] for line in lines_of(output, 'desks')[1::2]])
        self.assertEqual(['wave W.1 orders 2 ranks 3 7 start 36', 'wave W.2 orders 1 ranks 1430 1430 start 2'],
                         lines_of(output, 'waves'))

    def test_each_wave_has_one_group(self):
        self.assertEqual('desks\ndesk,command,arguments\n1,submit,G.1,O1\n1,release,G.1\n1,submit,H.1,O3\n'
                         '1,release,H.1\nend desks\nwaves\nwave G.1 orders 1 ranks 0 0 start 2\n'
                         'wave H.1 orders 1 ranks 0 0 start 2\nend waves\nleft\nend left\nend\n',
                         self.sent(open=OPEN + 'O1,G,0\nO3,H,0\n'))

    def test_64_served_orders_in_waves_of_3_are_22(self):
        orders = HEADING + ''.join('O%d,A,1\n' % number for number in range(64))
        output = self.sent(wave=3, stock=STOCK.replace('A,5', 'A,64'), orders=orders)
        self.assertEqual(22, len(lines_of(output, 'waves')))
        self.assertEqual([], lines_of(output, 'left'))
        one = self.sent(wave=64, stock=STOCK.replace('A,5', 'A,64'), orders=orders)
        self.assertEqual(['wave W.1 orders 64 ranks 0 0 start 64'], lines_of(one, 'waves'))

    def test_with_one_wave_at_most_others_are_later(self):
        output = self.sent('--most', '1')
        sent = lines_of(output, 'desks')[1].split(',')[3:]
        later = [order for order in ('O1', 'O2', 'O3') if order not in sent]
        told = {order + ' later' for order in later} | {'O4 short B 1 0', 'O5 short A 2 1'}
        self.assertEqual(sorted(told), lines_of(output, 'left'))
        self.assertEqual((1, True), (len(lines_of(output, 'waves')), bool(later)))

    def test_the_day_before_is_counted(self):
        listed = OPEN + ''.join('O%d,W,0\n' % number for number in range(1, 6))
        output = self.sent(open=listed, journal=W1)
        self.assertEqual(['O1 in W1', 'O4 short B 1 0', 'O5 short A 2 1'], lines_of(output, 'left'))
        self.assertEqual(['wave W.1 orders 2 ranks 0 0 start 36'], lines_of(output, 'waves'))
        without = self.sent(journal=W1)
        self.assertEqual(['O4 short B 1 0', 'O5 short A 2 1'], lines_of(without, 'left'))
        self.assertEqual(lines_of(output, 'desks'), lines_of(without, 'desks'))

    def test_a_cancelled_wave_has_no_order_and_keeps_its_name(self):
        journal = ('journal\n0 1 submit W.1 O1 -> submitted\n1 1 release W.1 -> released\n'
                   '2 1 cancel W.1 -> cancelled\nend journal\n')
        output = self.sent(open=OPEN + 'O1,W,0\n', journal=journal)
        self.assertEqual(['1,submit,W.2,O1', '1,release,W.2'], lines_of(output, 'desks')[1:])

    def test_an_order_over_the_cart_stands_between_two_others(self):
        output = self.sent('--units', '2', orders=HEADING + 'O1,A,2\nO2,A,1\nO2,B,2\nO3,A,2\n')
        self.assertEqual(['O2 over-cart 3'], lines_of(output, 'left'))
        self.assertEqual(['wave W.1 orders 2 ranks 0 0 start 4'], lines_of(output, 'waves'))

    def test_two_lines_of_an_article_are_added(self):
        output = self.sent(orders=HEADING + 'O1,A,3\nO1,A,3\nO2,A,5\n')
        self.assertEqual(['O1 short A 6 5'], lines_of(output, 'left'))
        self.assertEqual(['1,submit,W.1,O2', '1,release,W.1'], lines_of(output, 'desks')[1:])

    def test_no_order_is_three_empty_sections(self):
        self.assertEqual(EMPTY, self.sent(orders=HEADING))
        self.assertEqual(EMPTY, self.sent(open=OPEN))

    def test_the_desk_is_the_one_that_is_asked_for(self):
        self.assertEqual({'8'}, {line.split(',')[0] for line in lines_of(self.sent('--desk', '8'), 'desks')[1:]})

    def test_open_files_are_refused(self):
        for rows, why in (('O1,W,0\nO9,W,0\n', 'row 3 unknown-order'), ('O1,W,0\nO1,W,0\n', 'row 3 order-twice'),
                          ('O1,%s,0\n' % ('g' * 33), 'row 2 bad-name'), ('O1,W,-1\n', 'row 2 bad-number'),
                          ('O1,W,1000000001\n', 'row 2 out-of-range'), ('O1,W\n', 'row 2 columns'),
                          ('O 1,W,0\n', 'row 2 bad-name'), ('O1, ,0\n', 'row 2 bad-name')):
            self.refused(2, 'refused open ' + why, open=OPEN + rows)
        self.refused(2, 'refused open row 2 not-utf8', open=(OPEN + 'O1,\udcff,0\n').encode('utf-8', 'surrogateescape'))
        self.refused(2, 'refused open row 1 columns', open=STOCK)
        self.refused(2, 'refused open too-long', open=b'\n' * (1 << 24) + b'\n')
        self.sent(open=OPEN + 'O1,%s,1000000000\n' % ('g' * 32))

    def test_a_journal_that_is_not_right_ends_with_6(self):
        self.refused(6, 'refused journal line 1', journal=ORDERS)
        self.refused(6, 'refused journal entry 1 printed allotted right released',
                     journal=W1.replace('-> released', '-> allotted'))
        self.refused(2, 'refused open row 1 columns', open=STOCK, journal=ORDERS)

    def test_words_are_refused(self):
        for words, why in (((), 'no-mode'), (('plan',), 'unknown-mode'), (('waves',), 'bad-words')):
            done = runs.Done.of(subprocess.run([runs.WAVES, *words], stdin=subprocess.DEVNULL, stdout=subprocess.PIPE,
                                               stderr=subprocess.PIPE))
            self.assertEqual((1, 'refused words %s\n' % why), (done.status, done.output))
        for more in (('--most', '0'), ('--most', '501'), ('--desk', '9'), ('--effort', '1001'), ('--units', '0'),
                     ('--store', '1'), ('--most', '1', '--most', '1')):
            self.refused(1, 'refused words bad-words', *more)
        self.refused(1, 'refused words bad-words', wave=65)
        self.refused(1, 'refused words bad-words', capacity=9)
        done = subprocess.run([runs.WAVES, b'waves', b'\xff'], stdout=subprocess.PIPE, stdin=subprocess.DEVNULL)
        self.assertEqual((1, b'refused words bad-words\n'), (done.returncode, done.stdout))

    def test_each_file_that_is_missing_is_told_in_order(self):
        names = ('layout', 'stock', 'orders', 'open', 'journal')
        for count, name in enumerate(names):
            folder, _ = self.folder(open=OPEN, journal=W1)
            words = [word for each in names for word in ('--' + each, each if each in names[:count] else 'nowhere')]
            done = runs.waves(*words, '--wave', '2', '--capacity', '2', folder=folder)
            self.assertEqual((3, 'read fault %s\n' % name), (done.status, done.output))

    @unittest.skipUnless(os.path.exists('/dev/full'), 'there is no full device here')
    def test_an_output_that_can_not_be_written_ends_with_4(self):
        folder, _ = self.folder()
        words = ['waves', '--layout', 'layout', '--stock', 'stock', '--orders', 'orders', '--wave', '2', '--capacity',
                 '2']
        with open('/dev/full', 'wb') as full:
            self.assertEqual(4, subprocess.run([runs.WAVES, *words], cwd=folder, stdout=full).returncode)

    def test_with_9999_entries_before_all_are_later(self):
        for count, waves in ((9999, 0), (9998, 1), (9997, 1), (9996, 2)):
            entries = ''.join('%d 1 cancel X -> refused unknown-wave\n' % number for number in range(count))
            output = self.sent(journal='journal\n%send journal\n' % entries)
            self.assertEqual(waves, len(lines_of(output, 'waves')))
            later = [line for line in lines_of(output, 'left') if line.endswith(' later')]
            self.assertEqual(waves < 2, bool(later))

    def test_a_run_repeats_and_each_effort_is_right(self):
        orders = HEADING + ''.join('O%d,%s,1\n' % (number, 'AB'[number % 3 == 0]) for number in range(24))
        stock = 'location,article,on_hand\n1-1-L,A,50\n3-4-L,B,50\n'
        for effort in (0, 1, 1000):
            outputs = {self.sent('--effort', effort, wave=5, orders=orders, stock=stock) for _ in range(2)}
            self.assertEqual(1, len(outputs))


@unittest.skipUnless(runs.WAVES, 'the program waves is not named')
class Planned(Runs):
    """What is sent out is planned, and after that day the next run goes on."""

    def planned(self, folder, output, journal=''):
        """The journal of the day on which the desk file of an output is planned."""
        desks = output.split('desks\n', 1)[1].split('end desks\n')[0]
        runs.put(folder, {'desks': desks})
        done = runs.waveplan('plan', '--layout', 'layout', '--stock', 'stock', '--orders', 'orders', '--desks', 'desks',
                             '--capacity', '2', folder=folder)
        self.assertEqual(0, done.status, done.output)
        return done.output

    def test_a_second_run_goes_on_with_the_names(self):
        orders = ORDERS + 'O6,A,1\n'
        listed = OPEN + ''.join('O%d,W,0\n' % number for number in range(1, 6))
        done, folder, _ = self.run_waves(orders=orders, open=listed)
        day = self.planned(folder, done.output)
        replies = re.findall(r'^\d+ 1 (\w+) .* -> (.*)$', day, re.MULTILINE)
        self.assertEqual([('submit', 'submitted'), ('release', 'released')] * 2, replies)
        again = self.sent(orders=orders, journal=day)
        self.assertEqual(['1,submit,W.3,O6', '1,release,W.3'], lines_of(again, 'desks')[1:])
        self.assertEqual(['O4 short B 1 0', 'O5 short A 2 1'], lines_of(again, 'left'))
        told = lines_of(self.sent(orders=orders, journal=day, open=listed), 'left')
        self.assertEqual(['O1', 'O2', 'O3'], [line.split(' ')[0] for line in told if ' in W.' in line])

    def test_what_was_short_is_refused_alone(self):
        done, folder, _ = self.run_waves()
        more = '1,submit,X,O4\n1,release,X\n1,submit,Y,O5\n1,release,Y\nend desks\n'
        day = self.planned(folder, done.output.replace('end desks\n', more))
        self.assertIn('release X -> refused short B 1 0\n', day)
        self.assertIn('release Y -> refused short A 2 1\n', day)


@unittest.skipUnless(runs.WAVES, 'the program waves is not named')
class Drawn(unittest.TestCase):
    def fuzzed(self, program, count, *more):
        return runs.script('fuzz', runs.PROGRAM, '--waves', program, '--mode', 'waves', '--runs', count, *more)

    def test_nothing_is_wrong(self):
        done = self.fuzzed(runs.WAVES, 60)
        self.assertEqual(0, done.status, done.output + done.errors)


FAULTS = (('a start of one less', rb'(start) (\d+)$', 'b"%s %d" % (found[1], int(found[2]) - 1)'),
          ('an order left out of a wave', rb'^(\d,submit,[^,\n]+,[^,\n]+),.*$', 'found[1]'),
          ('a short order that is later', rb'^(\S+) short .*$', 'b"%s later" % found[1]'),
          ('a name of another number', rb'\.(\d+)', 'b".%d" % (int(found[1]) + 1)'),
          ('a release left out', rb'^\d,release,.*\n', 'b""'))


def test_that_it_is_found(place, fault):
    """A test that this fault, planted behind the program, is found."""
    def test(self):
        name, pattern, new = fault
        program = Path(runs.shelf().name) / ('planted-waves-%d' % place)
        program.write_text(runs.PLANTED % {'program': runs.WAVES, 'pattern': pattern, 'new': new,
                                           'status': 'done.returncode'})
        program.chmod(0o755)
        done = self.fuzzed(program, 80, '--to-wrong')
        self.assertEqual(1, done.status, name + done.output + done.errors)
        self.assertIn('wrong: waves run', done.output)
    return test


for number, known in enumerate(FAULTS):
    setattr(Drawn, 'test_it_finds_%s' % re.sub(r'\W+', '_', known[0]), test_that_it_is_found(number, known))
del test_that_it_is_found


if __name__ == '__main__':
    unittest.main()
