"""Tests of the benchmark with the program, over instances whose best plans are known by hand."""

import json
import tempfile
import unittest
from pathlib import Path

import runs
from test_benchmark import PLAIN

HEAD = PLAIN.split('capacity')[0].replace('three-orders', 'many')


class Benchmarked(unittest.TestCase):
    def setUp(self):
        self.folder = Path(tempfile.mkdtemp(dir=runs.shelf().name))

    def run_of(self, text, *words):
        """What the run of a plain file came to, as an object."""
        runs.put(self.folder, {'plain.txt': text})
        done = runs.script('benchmark', '--read', 'plain.txt', '--program', runs.PROGRAM, '--keep', 'kept', '--json',
                           *words, folder=self.folder)
        self.assertEqual((0, ''), (done.status, done.errors))
        run, = json.loads(done.output)['rows'][0]['runs']
        return {name: run[name] for name in ('cost', 'bound', 'proven')}

    def test_three_orders_by_hand(self):
        """O1 alone walks 14. O2 alone walks 36: 5 and 5 along the front and 10 back, and 14 and 2 into two aisles; O3
        lies on its way, and alone walks 22. O1 and O2 together walk 38: 8 through each of two aisles, 5 at the back and
        5 in front between them, 2 into the third, and 10 back. So a cart of O2 and O3 is best, and that costs 50; the
        others cost 60 and 72. With carts of one order it is 14, 36 and 22."""
        self.assertEqual({'cost': 50, 'bound': 50, 'proven': True}, self.run_of(PLAIN))
        self.assertEqual({'cost': 72, 'bound': 72, 'proven': True}, self.run_of(PLAIN, '--capacity', '1'))
        self.assertEqual({'cost': 72, 'bound': 72, 'proven': True}, self.run_of(PLAIN, '--units', '3'))

    def test_two_waves_by_hand(self):
        """Two waves of 64 orders at one slot, 1 from the depot: eight carts of eight orders each, which walk 2. The
        share of an order is a quarter, and 64 of them are 16, so each wave is proven at once."""
        orders = ''.join('order O%d 1-1-L 1\n' % number for number in range(1, 129))
        text = HEAD + 'capacity 8\nunits none\norders 128\n' + orders + 'end\n'
        self.assertEqual({'cost': 32, 'bound': 32, 'proven': True}, self.run_of(text, '--budget', '0'))

    def test_what_is_drawn_is_planned(self):
        done = runs.script('benchmark', '--class', 'gademann-velde,henn-waescher', '--orders', '3', '--capacity', '2',
                           '--units', '30', '--seeds', '2', '--program', runs.PROGRAM, '--keep', 'kept', '--json',
                           folder=self.folder)
        self.assertEqual((0, ''), (done.status, done.errors))
        rows = json.loads(done.output)['rows']
        self.assertEqual([2, 2, 2], [row['proven'] for row in rows])


if __name__ == '__main__':
    unittest.main()
