"""Tests of how outputs of `waves` are judged: right ones that were worked out by hand, and the same with one change."""

import unittest
from pathlib import Path

import by_hand
import runs
from opinion import answers, waves

STOCK = 'location,article,on_hand\n1-1-L,A,5\n3-4-L,B,1\n'
ORDERS = 'order,article,quantity\nO1,A,2\nO2,B,1\nO3,A,2\nO4,B,1\nO5,A,2\n'
WORDS = 'waves --layout layout --stock stock --orders orders --capacity 2'.split()

# Of A five units are there, of B one. A tour past 1-1 is 2 long; one past 3-4 goes 10 across and 7 deep, 34 in all; one
# past both is 36 long, and so are the two.
EXAMPLE = ['desks', 'desk,command,arguments', '1,submit,W.1,O1,O3', '1,release,W.1', '1,submit,W.2,O2', '1,release,W.2',
           'end desks', 'waves', 'wave W.1 orders 2 ranks 0 0 start 2', 'wave W.2 orders 1 ranks 0 0 start 34',
           'end waves', 'left', 'O4 short B 1 0', 'O5 short A 2 1', 'end left', 'end']
# Other waves of the same orders are right too.
ACROSS = [*EXAMPLE[:2], '1,submit,W.1,O1,O2', '1,release,W.1', '1,submit,W.2,O3', '1,release,W.2', *EXAMPLE[6:8],
          'wave W.1 orders 2 ranks 0 0 start 36', 'wave W.2 orders 1 ranks 0 0 start 2', *EXAMPLE[10:]]
FIRST_ALONE = [*EXAMPLE[:2], '1,submit,W.1,O1', '1,release,W.1', '1,submit,W.2,O2,O3', '1,release,W.2', *EXAMPLE[6:8],
               'wave W.1 orders 1 ranks 0 0 start 2', 'wave W.2 orders 2 ranks 0 0 start 36', *EXAMPLE[10:]]
EMPTY = ['desks', 'desk,command,arguments', 'end desks', 'waves', 'end waves', 'left', 'end left', 'end']


def faults(output, *more, wave=2, orders=ORDERS, stock=STOCK, **files):
    """What is wrong with the lines of an output."""
    named = {'layout': by_hand.LAYOUT, 'stock': stock, 'orders': orders, **files}
    words = [*WORDS, '--wave', str(wave), *more]
    for name in files:
        words += ['--' + name, name]
    data = ''.join(line + '\n' for line in output).encode()
    return answers.faults(words, lambda name: named[name].encode(), 0, data)


def changed(lines, *pairs):
    """Lines in which each of these texts stands in the place of another."""
    text = '\n'.join(lines)
    for old, new in pairs:
        assert old in text, old
        text = text.replace(old, new)
    return text.split('\n')


class Sent(unittest.TestCase):
    def right(self, output, *more, **files):
        self.assertEqual([], faults(output, *more, **files))

    def wrong(self, why, output, *more, **files):
        found = faults(output, *more, **files)
        self.assertEqual(1, len(found), found)
        self.assertIn(why, found[0])

    def test_all_right_waves_of_equal_ranks_are_right(self):
        for output in (EXAMPLE, ACROSS, FIRST_ALONE):
            self.right(output)

    def test_a_short_order_is_no_served_one(self):
        self.wrong('O5 is no served order: short A 2 1', changed(EXAMPLE, ('O1,O3', 'O1,O5')))
        self.wrong('O4 is no served order', changed(EXAMPLE, ('W.2,O2', 'W.2,O2,O4')))

    def test_each_served_order_is_in_exactly_one_wave(self):
        self.wrong('is answered', changed(EXAMPLE, ('W.2,O2', 'W.2,O1')))
        self.wrong('1 waves go out where 2 are due', [*EXAMPLE[:4], *EXAMPLE[6:9], *EXAMPLE[10:]])
        self.wrong('are put into more or fewer waves than due',
                   changed(EXAMPLE, ('O1,O3', 'O1'), ('orders 2', 'orders 1')))

    def test_waves_have_their_size_and_their_number(self):
        self.wrong('more orders than a wave may have', changed(EXAMPLE, ('O1,O3', 'O1,O2,O3')))
        self.wrong('3 waves go out where 2 are due',
                   changed(EXAMPLE, ('O1,O3', 'O1'),
                           ('1,release,W.2', '1,release,W.2\n1,submit,W.3,O3\n1,release,W.3')))
        self.wrong('2 waves go out where 1 are due', EXAMPLE, wave=3)

    def test_orders_and_waves_stand_as_they_were_served(self):
        self.wrong('do not stand as they were served', changed(EXAMPLE, ('O1,O3', 'O3,O1')))
        self.wrong('the waves do not stand', [*EXAMPLE[:2], '1,submit,W.1,O2', '1,release,W.1', '1,submit,W.2,O1,O3',
                                              '1,release,W.2', *EXAMPLE[6:]])

    def test_names_are_the_next_that_are_free(self):
        self.wrong('named W.2 where W.1 is due', changed(EXAMPLE, ('W.1', 'W.2')))
        self.wrong('named X.1 where W.1 is due', changed(EXAMPLE, ('W.1', 'X.1')))
        self.wrong('named W.3 where W.2 is due', changed(EXAMPLE, ('W.2', 'W.3')))

    def test_commands_are_those_of_the_desk(self):
        self.wrong('no submit of desk 2', EXAMPLE, '--desk', '2')
        self.wrong("'1,submit,W.2,O2' where '1,release,W.1' is due", [it for it in EXAMPLE if it != '1,release,W.1'])
        self.right([it.replace('1,', '3,', 1) if it.startswith('1,') else it for it in EXAMPLE], '--desk', '3')

    def test_lines_of_waves_say_what_is_so(self):
        self.wrong('the line of W.1', changed(EXAMPLE, ('W.1 orders 2', 'W.1 orders 1')))
        self.wrong('the line of W.1', changed(EXAMPLE, ('W.1 orders 2 ranks 0 0', 'W.1 orders 2 ranks 0 1')))
        self.wrong('no line of a wave', changed(EXAMPLE, ('start 34', 'start 034')))

    def test_starts_are_what_some_batching_costs(self):
        for start in ('1', '3', '5'):
            self.wrong('the start of W.1 is', changed(EXAMPLE, ('start 2', 'start ' + start)))
        self.right(changed(EXAMPLE, ('start 2', 'start 4')))
        self.wrong('the start of W.2 is 33', changed(EXAMPLE, ('start 34', 'start 33')))
        self.wrong('which no batching costs', changed(FIRST_ALONE, ('start 36', 'start 35')))

    def test_left_orders_say_why(self):
        for old, new in (('O4 short B 1 0', 'O4 short B 1 1'), ('O4 short B 1 0', 'O4 short B 2 0'),
                         ('O4 short B 1 0', 'O4 later'), ('O4 short B 1 0', 'O4 over-cart 1'),
                         ('O5 short A 2 1', 'O5 short B 2 1'), ('O5 short A 2 1', 'O5 short A 6 5')):
            self.wrong('is due', changed(EXAMPLE, (old, new)))
        self.wrong("where 'O4 short B 1 0' is due", [*EXAMPLE[:12], EXAMPLE[13], EXAMPLE[12], *EXAMPLE[14:]])
        self.wrong("'end left' where 'O5 short", [it for it in EXAMPLE if not it.startswith('O5')])

    def test_nothing_is_cut_off_or_follows(self):
        self.wrong('cut off', EXAMPLE[:-1])
        self.wrong('something follows', [*EXAMPLE, ''])

    def test_the_lower_rank_gets_stock_first(self):
        ranks = 'order,group,rank\nO2,W,1\nO4,W,0\n'
        output = ['desks', 'desk,command,arguments', '1,submit,W.1,O4', '1,release,W.1', 'end desks', 'waves',
                  'wave W.1 orders 1 ranks 0 0 start 34', 'end waves', 'left', 'O2 short B 1 0', 'end left', 'end']
        self.right(output, open=ranks)
        self.wrong('O2 is no served order', changed(output, ('O4', 'O2'), ('O2 short', 'O4 short')), open=ranks)

    def test_no_rank_of_a_wave_is_above_one_of_a_later_wave(self):
        ranks = 'order,group,rank\nO1,W,0\nO2,W,1\nO3,W,0\n'
        self.wrong('is due', EXAMPLE, open=ranks)
        output = [*changed(EXAMPLE[:11], ('W.2 orders 1 ranks 0 0', 'W.2 orders 1 ranks 1 1')), 'left', 'end left',
                  'end']
        self.right(output, open=ranks)
        across = [*ACROSS[:11], 'left', 'end left', 'end']
        self.wrong('has a rank above one of a later wave', across, open=ranks)

    def test_a_wave_has_one_group(self):
        groups = 'order,group,rank\nO1,G,0\nO3,H,0\n'
        output = ['desks', 'desk,command,arguments', '1,submit,G.1,O1', '1,release,G.1', '1,submit,H.1,O3',
                  '1,release,H.1', 'end desks', 'waves', 'wave G.1 orders 1 ranks 0 0 start 2',
                  'wave H.1 orders 1 ranks 0 0 start 2', 'end waves', 'left', 'end left', 'end']
        self.right(output, open=groups)
        self.wrong('of several groups', changed(output, ('G.1,O1', 'G.1,O1,O3')), open=groups)

    def test_later_orders_are_those_behind_the_waves(self):
        first = [*EXAMPLE[:4], *EXAMPLE[6:9], 'end waves', 'left', 'O2 later', *EXAMPLE[12:]]
        self.right(first, '--most', '1')
        self.wrong('1 waves go out where 2 are due', first)
        second = changed(first, ('O1,O3', 'O2'), ('orders 2', 'orders 1'), ('start 2', 'start 34'),
                         ('O2 later', 'O1 later\nO3 later'))
        self.wrong('O1 is told as later, and was served before', second, '--most', '1')
        four = ORDERS + 'O6,A,1\n'
        alone = ['desks', 'desk,command,arguments', '1,submit,W.1,O1', '1,release,W.1', 'end desks', 'waves',
                 'wave W.1 orders 1 ranks 0 0 start 2', 'end waves', 'left', 'O2 later', 'O3 later', *EXAMPLE[12:14],
                 'O6 later', 'end left', 'end']
        self.wrong('more or fewer waves than due', alone, '--most', '1', orders=four)

    def test_the_day_before_is_taken_away(self):
        journal = ('journal\n0 1 submit W.1 O1 -> submitted\n1 1 release W.1 -> released\nend journal\n')
        listed = 'order,group,rank\nO1,W,0\nO3,W,0\nO5,W,0\n'
        output = ['desks', 'desk,command,arguments', '1,submit,W.2,O3', '1,release,W.2', 'end desks', 'waves',
                  'wave W.2 orders 1 ranks 0 0 start 2', 'end waves', 'left', 'O1 in W.1', 'O5 short A 2 1', 'end left',
                  'end']
        self.right(output, open=listed, journal=journal)
        self.wrong('named W.1 where W.2 is due', changed(output, ('W.2', 'W.1')), open=listed, journal=journal)
        self.wrong('is due', changed(output, ('O1 in W.1', 'O1 later')), open=listed, journal=journal)
        self.wrong('O5 is no served order', changed(output, ('O3', 'O3,O5')), open=listed, journal=journal)

    def test_a_journal_without_room_leaves_waves_out(self):
        for count, waves_due in ((9995, 2), (9996, 2), (9997, 1), (9998, 1), (9999, 0), (10000, 0)):
            served = [waves.Open(name, 'W', 0) for name in 'abc']
            self.assertEqual(waves_due, waves.how_many(served, {'wave': 2, 'most': 500}, count))

    def test_an_order_over_the_cart_is_left(self):
        output = ['desks', 'desk,command,arguments', '1,submit,W.1,O2,O4', '1,release,W.1', 'end desks', 'waves',
                  'wave W.1 orders 2 ranks 0 0 start 34', 'end waves', 'left', 'O1 over-cart 2', 'O3 over-cart 2',
                  'O5 over-cart 2', 'end left', 'end']
        stock = STOCK.replace('B,1', 'B,2')
        self.right(changed(output, ('start 34', 'start 68')), '--units', '1', stock=stock)
        self.wrong('each batching costs', changed(output, ('start 34', 'start 33')), '--units', '1', stock=stock)
        self.wrong('which no batching costs', output, '--units', '1', stock=stock)

    def test_no_order_is_three_empty_sections(self):
        self.right(EMPTY, open='order,group,rank\n')
        self.right(EMPTY, orders='order,article,quantity\n')
        self.wrong('O1 is no served order: it is not open', EXAMPLE, orders='order,article,quantity\n')

    def test_files_are_refused_at_their_first_test(self):
        heading = 'order,group,rank\n'
        for rows, why in (('O1,G\n', 'row 2 columns'), ('O1,\udcff,x\n', 'row 2 not-utf8'),
                          ('O 1,G,0\n', 'row 2 bad-name'), ('O9,G,x\n', 'row 2 unknown-order'),
                          ('O1,G,0\nO1, ,x\n', 'row 3 order-twice'),
                          ('O1,%s,x\n' % ('g' * 33), 'row 2 bad-name'), ('O1,G,-1\n', 'row 2 bad-number'),
                          ('O1,G,1000000001\n', 'row 2 out-of-range')):
            data = (heading + rows).encode('utf-8', 'surrogateescape')
            named = {'layout': by_hand.LAYOUT.encode(), 'stock': STOCK.encode(), 'orders': ORDERS.encode(),
                     'open': data}
            found = answers.refusal_of([*WORDS, '--wave', '2', '--open', 'open'], named.get)
            self.assertEqual((2, 'refused open %s' % why), (found.status, found.line))
        self.assertEqual('read fault open', answers.refusal_of([*WORDS, '--wave', '2', '--open', 'none'], {
            'layout': by_hand.LAYOUT.encode(), 'stock': STOCK.encode(), 'orders': ORDERS.encode()}.get).line)


class Told(unittest.TestCase):
    """What `tools/wave waves` makes of an output."""

    def told(self, output, *words, orders=ORDERS, stock=STOCK, **files):
        folder = runs.put(Path(runs.shelf().name) / 'sent', {
            'layout': by_hand.LAYOUT, 'stock': stock, 'orders': orders, **files,
            'sent.txt': ''.join(line + '\n' for line in output)})
        return runs.script('waves', 'sent.txt', *words, folder=folder), folder

    def test_the_desk_file_and_a_line_of_what_goes_out(self):
        done, _ = self.told(EXAMPLE)
        self.assertEqual((0, EXAMPLE[1:6]), (done.status, done.output.splitlines()))
        self.assertEqual('2 waves with 3 orders go out; 2 orders are left: 2 short\n', done.errors)
        done, _ = self.told(EMPTY)
        self.assertEqual((0, EMPTY[1:2]), (done.status, done.output.splitlines()))
        self.assertEqual('0 waves with 0 orders go out; 0 orders are left\n', done.errors)

    def test_the_desk_file_goes_into_a_file(self):
        done, folder = self.told(EXAMPLE, '-o', 'desks.csv')
        self.assertEqual((0, ''), (done.status, done.output))
        self.assertEqual(EXAMPLE[1:6], (folder / 'desks.csv').read_text().splitlines())

    def test_receipts_are_told_by_the_orders_that_they_free(self):
        files = ['--layout', 'layout', '--stock', 'stock', '--orders', 'orders']
        done, _ = self.told(EXAMPLE, *files)
        self.assertEqual(['1 B more would free 1 of the orders', '1 A more would free 1 of the orders'],
                         done.errors.splitlines()[1:])
        # Two orders are short of A alone, and O7 of both A and B, so that no receipt of one article frees it. With O5,
        # O6 and all that is served 2 + 2 + 2 + 2 of A are wanted, 3 more than there are.
        orders = ORDERS + 'O6,A,2\nO7,A,1\nO7,A,1\nO7,B,1\n'
        output = [*EXAMPLE[:-2], 'O6 short A 2 1', 'O7 short A 2 1', *EXAMPLE[-2:]]
        self.assertEqual([], faults(output, orders=orders))
        done, _ = self.told(output, *files, orders=orders)
        self.assertEqual(['3 A more would free 2 of the orders', '1 B more would free 1 of the orders'],
                         done.errors.splitlines()[1:])

    def test_a_receipt_goes_to_the_lower_rank_first(self):
        files = ['--layout', 'layout', '--stock', 'stock', '--orders', 'orders', '--open', 'open']
        listed = 'order,group,rank\nO5,W,1\nO1,W,0\nO2,W,0\nO3,W,0\nO4,W,3\n'
        done, folder = self.told(changed(EXAMPLE, ('O4 short B 1 0\nO5 short A 2 1', 'O5 short A 2 1\nO4 short B 1 0')),
                                 *files, '--html', 'page.html', '--unit', 'cm', open=listed)
        self.assertEqual((0, 3), (done.status, len(done.errors.splitlines())), done.errors)
        page = (folder / 'page.html').read_text()
        for text in ('2 waves with 3 orders to send out, and 2 orders are left', '36\u00a0cm', '<b>W.1</b>', 'O1, O3',
                     'wants 2 A, of which 1 are free in its turn', 'Receipts that free most orders'):
            self.assertIn(text, page)

    def test_the_page_tells_each_cause(self):
        output = [*EXAMPLE[:11], 'left', 'O4 in W1', 'O5 over-cart 1200', 'O6 later', 'O7 short A 2 1', 'end left',
                  'end']
        done, folder = self.told(output, '--html', 'page.html')
        self.assertEqual('2 waves with 3 orders go out; 4 orders are left: 1 in a wave already, 1 over the cart, '
                         '1 short, 1 later\n', done.errors)
        page = (folder / 'page.html').read_text()
        for text in ('lies in the wave W1', 'has 1200 units, more than a cart holds', 'goes out with a later wave'):
            self.assertIn(text, page)
        self.assertNotIn('Receipts', page)
        done, folder = self.told(EMPTY, '--html', 'page.html')
        page = (folder / 'page.html').read_text()
        for text in ('0 waves with 0 orders', 'No wave goes out.', 'No open order is left.'):
            self.assertIn(text, page)

    def test_what_is_no_output_is_refused(self):
        for output in (EXAMPLE[:-1], EXAMPLE[1:], ['refused words bad-words'], [*EXAMPLE[:8], 'wave W.2', *EXAMPLE[9:]],
                       changed(EXAMPLE, ('wave W.1', 'wave W.3')), changed(EXAMPLE, ('O4 short', 'O4 long'))):
            done, _ = self.told(output)
            self.assertEqual((2, ''), (done.status, done.output))
            self.assertIn('sent.txt', done.errors)

    def test_files_of_another_run_are_refused(self):
        files = ['--layout', 'layout', '--stock', 'stock', '--orders', 'orders']
        done, _ = self.told(EXAMPLE, *files, orders='order,article,quantity\nO1,A,2\n')
        self.assertEqual((2, ''), (done.status, done.output))
        self.assertIn('name the files of that run', done.errors)
        done, _ = self.told(EXAMPLE, *files, orders='order\n')
        self.assertIn('refused orders row 1 columns', done.errors)
        self.assertEqual(2, self.told(EXAMPLE, '--stock', 'stock')[0].status)
        self.assertEqual(2, self.told(EXAMPLE, *files[:4], '--orders', 'nowhere')[0].status)


if __name__ == '__main__':
    unittest.main()
