"""Tests of split by orders that are divided by hand."""

import unittest
from pathlib import Path

import by_hand
import runs

STOCK = 'location,article,on_hand\n1-1-L,A,3\n1-4-L,A,2\n2-4-L,B,3\n3-1-L,C,0\n'
HEADING = 'order,article,quantity\n'


def split(orders, *words, stock=STOCK):
    """Divides the lines of an order file, and gives how that ended."""
    folder = runs.put(Path(runs.shelf().name) / 'split',
                      {'layout.json': by_hand.LAYOUT, 'stock.csv': stock,
                       'orders.csv': HEADING + ''.join(line + '\n' for line in orders)})
    return runs.script('split', *runs.options(folder, runs.FILES[:3]), *words)


def lines_of(done):
    """The lines of the order file that was written."""
    heading, *lines = done.output.splitlines(True)
    assert heading == HEADING
    return ''.join(lines).split('\n')[:-1]


class Covered(unittest.TestCase):
    def judge(self, orders, made, *told, words=()):
        done = split(orders, *words)
        self.assertEqual((0, made, [*told, '']), (done.status, lines_of(done), done.errors.split('\n')))

    def test_orders_that_are_covered_stay(self):
        self.judge(['O1,A,4', 'O1,B,3', 'O2,A,1'], ['O1,A,4', 'O1,B,3', 'O2,A,1'], '2 orders, of 2')

    def test_a_line_that_is_not_covered_goes_to_a_back_order(self):
        self.judge(['O1,A,2', 'O1,B,9', 'O1,A,3', 'O2,B,1'], ['O1,A,2', 'O1,A,3', 'O1.b,B,9', 'O2,B,1'],
                   'O1: 9 B to the back order O1.b', '3 orders, of 2')

    def test_each_line_takes_from_what_lines_before_it_have_left(self):
        self.judge(['O1,A,3', 'O1,A,3', 'O2,A,2', 'O3,B,1', 'O3,A,1'],
                   ['O1,A,3', 'O1.b,A,3', 'O2,A,2', 'O3,B,1', 'O3.b,A,1'],
                   'O1: 3 A to the back order O1.b', 'O3: 1 A to the back order O3.b', '5 orders, of 3')

    def test_an_order_of_which_nothing_is_covered_takes_nothing(self):
        self.judge(['O1,A,6', 'O1,C,1', 'O2,A,5'], ['O1,A,6', 'O1,C,1', 'O2,A,5'], 'O1: nothing of it is covered',
                   '2 orders, of 2')

    def test_without_back_orders_no_line_is_moved(self):
        self.judge(['O1,A,2', 'O1,B,9'], ['O1,A,2', 'O1,B,9'], '1 orders, of 1', words=['--no-back-orders'])

    def test_no_order(self):
        self.judge([], [], '0 orders, of 0')


class Loaded(unittest.TestCase):
    STOCK = 'location,article,on_hand\n1-1-L,A,1000\n1-4-L,B,1000\n'

    def judge(self, orders, units, made, *told):
        done = split(orders, '--units', units, stock=self.STOCK)
        self.assertEqual((0, made, [*told, '']), (done.status, lines_of(done), done.errors.split('\n')))

    def test_lines_that_fit_a_cart_stay_whole(self):
        self.judge(['O1,A,3', 'O1,B,4', 'O1,A,2', 'O1,B,1', 'O2,A,5'], 5,
                   ['O1.1,A,3', 'O1.1,A,2', 'O1.2,B,4', 'O1.2,B,1', 'O2,A,5'], 'O1: 10 units, in 2 orders, O1.1 to O1.2',
                   '3 orders, of 2')

    def test_a_longer_line_fills_carts(self):
        self.judge(['O1,B,1', 'O1,A,12'], 5, ['O1.1,B,1', 'O1.1,A,2', 'O1.2,A,5', 'O1.3,A,5'],
                   'O1: 13 units, in 3 orders, O1.1 to O1.3', '3 orders, of 1')
        self.judge(['O1,A,10'], 5, ['O1.1,A,5', 'O1.2,A,5'], 'O1: 10 units, in 2 orders, O1.1 to O1.2', '2 orders, of 1')
        self.judge(['O1,A,3'], 1, ['O1.1,A,1', 'O1.2,A,1', 'O1.3,A,1'], 'O1: 3 units, in 3 orders, O1.1 to O1.3',
                   '3 orders, of 1')

    def test_a_back_order_is_divided_too(self):
        done = split(['O1,A,4', 'O1,B,2001'], '--units', '2000', stock=self.STOCK)
        self.assertEqual(['O1,A,4', 'O1.b.1,B,2000', 'O1.b.2,B,1'], lines_of(done))


class Refused(unittest.TestCase):
    def judge(self, why, *words, orders=('O1,A,2', 'O1,B,9'), stock=STOCK):
        done = split(orders, *words, stock=stock)
        self.assertEqual((2, ''), (done.status, done.output))
        self.assertIn(why, done.errors)
        self.assertEqual(1, len(done.errors.splitlines()))

    def test_a_name_that_is_taken(self):
        self.judge('O1.b stands in the order file already', orders=['O1,A,2', 'O1,B,9', 'O1.b,A,1'])
        self.judge('O1.2 stands in the order file already', '--units', '1', orders=['O1,A,2', 'O1.2,A,1'])

    def test_a_name_that_is_too_long(self):
        self.judge('%s.b would have 41 signs' % ('N' * 39), orders=['N' * 39 + ',A,1', 'N' * 39 + ',B,9'])

    def test_too_many_orders(self):
        self.judge('there would be 10001 orders', '--units', '1',
                   orders=['O1,A,10001'], stock='location,article,on_hand\n1-1-L,A,100000\n')
        self.judge('there would be 10001 orders', '--units', '2',
                   orders=['O%d,A,1' % number for number in range(9999)] + ['P,A,3'],
                   stock='location,article,on_hand\n1-1-L,A,100000\n')

    def test_a_file_that_the_program_would_refuse(self):
        self.judge('orders.csv would be refused: refused orders row 2 unknown-article', orders=['O1,X,1'])
        self.judge('stock.csv would be refused: refused stock row 2 unknown-location', stock=STOCK.replace('1-1-L', '9-1-L'))
