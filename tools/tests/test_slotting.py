"""Tests of what slotting does beside its runs: exchanges in files, and which of them are worth a run, worked out by
hand.

The day FORTY has two aisles, 19 apart, with slot 1 at 1 from the front, and one order that picks A at 1-1-L and B at
2-1-L. Its walk is 1 + 1 into aisle 1, 19 + 19 along the front and 1 + 1 into aisle 2: 42. Once B lies at 1-1-R, in the
slot of A, it is 2. So the exchange of B with C, which lies there and isn't picked, saves 40.

In the day TWIN B and D lie in both rows of slot 4 of aisle 2, at 7 from the front. An aisle is 8 long. In and out of
both aisles the walk is 2 + 38 + 14 = 54. Once B lies at 1-1-R and D at 1-2-L, 3 from the front, it is 6: that saves 48.
As long as one of them lies in aisle 2, the walk stays 54 at least.
"""

import unittest

import by_hand
from floor import candidates, exchanges, slot_search, slotting
from floor.output import day_of
from floor.warehouse import layout_of

LAYOUT = '{"version":1,"aisles":2,"slots":4,"pitch":2,"clearance":1,"spacing":19,"depot":1}'
FORTY = ['journal', '0 1 submit W1 O1 -> submitted', '1 1 release W1 -> released', 'end journal',
         'wave W1 entry 1 orders 1 capacity 2 cost 42 bound 42 proven', 'batch 1 length 42 orders O1',
         'tour 1-0 1-1 1-0 2-0 2-1 2-0 1-0', 'pick 1-1-L A 1 O1', 'pick 2-1-L B 1 O1', 'end wave',
         'refills', 'end refills', 'stock', '1-1-L A 5 4 1', '1-1-R C 7 7 0', '2-1-L B 5 4 1', 'end stock', 'end', '']
ROWS = {'1-1-L': 'A', '1-1-R': 'C', '2-1-L': 'B'}
TWIN = ['wave W1 entry 1 orders 1 capacity 2 cost 54 bound 54 proven', 'batch 1 length 54 orders O1',
        'tour 1-0 1-1 1-0 2-0 2-1 2-2 2-3 2-4 2-3 2-2 2-1 2-0 1-0', 'pick 1-1-L A 1 O1', 'pick 2-4-L B 1 O1',
        'pick 2-4-R D 1 O1']
SAVES = ('1-1-R', '2-1-L')


def carts_of(lines, layout=LAYOUT):
    return candidates.Carts(layout_of(layout.encode(), ''), day_of('\n'.join(lines).encode(), ''))


class Files(unittest.TestCase):
    STOCK = b'\xef\xbb\xbflocation,article,on_hand\r\n2-1-L,B,5,,\r\n01-1-R,C,007\r\n\r\n"1-1-L",A,5\r\n'

    def test_articles_change_their_locations_and_keep_their_records(self):
        self.assertEqual(b'location,article,on_hand\n1-1-R,B,5\n2-1-L,C,007\n1-1-L,A,5\n',
                         exchanges.stock_file(self.STOCK, [SAVES]))

    def test_commands_go_where_the_articles_lie(self):
        desks = (b'desk,command,arguments\n1,submit,W1,1-1-R,O2\n2,receive,02-1-L,B,3\n1,pick,W1,O1,2-1-L,1\n'
                 b'1,missing,W1,O1,1-1-R,1\n1,pick,W1,O1,1-1-L,1\n')
        due = (b'desk,command,arguments\n1,submit,W1,1-1-R,O2\n2,receive,1-1-R,B,3\n1,pick,W1,O1,1-1-R,1\n'
               b'1,missing,W1,O1,2-1-L,1\n1,pick,W1,O1,1-1-L,1\n')
        self.assertEqual(due, exchanges.desk_file(desks, [SAVES]))

    def test_several_exchanges_at_once(self):
        stock = b'location,article,on_hand\n1-1-L,A,1\n1-1-R,B,2\n2-1-L,C,3\n2-1-R,D,4\n'
        self.assertEqual(b'location,article,on_hand\n2-1-R,A,1\n2-1-L,B,2\n1-1-R,C,3\n1-1-L,D,4\n',
                         exchanges.stock_file(stock, [SAVES, ('1-1-L', '2-1-R')]))


class Worth(unittest.TestCase):
    def test_what_a_slot_adds_to_tours(self):
        carts = carts_of(FORTY)
        self.assertEqual([2, 0, 40], [carts.adds(location) for location in ROWS])
        self.assertEqual({'1-1-L': 1, '2-1-L': 1}, carts.picks)
        twin = carts_of([*FORTY[:4], *TWIN, *FORTY[9:]])
        self.assertEqual([0, 0, 52], [twin.adds(*some) for some in (['2-4-L'], ['2-4-R'], ['2-4-L', '2-4-R'])])

    def test_what_an_exchange_saves(self):
        carts = carts_of(FORTY)
        self.assertEqual([40, 0, 0], [carts.saving([pair]) for pair in (SAVES, ('1-1-L', '2-1-L'), ('1-1-L', '1-1-R'))])
        twin = carts_of([*FORTY[:4], *TWIN, *FORTY[9:]])
        one, other = ('1-1-R', '2-4-L'), ('1-2-L', '2-4-R')
        self.assertEqual([0, 0, 48], [twin.saving(some) for some in ([one], [other], [one, other])])

    def test_how_far_a_location_lies_from_a_tour(self):
        # The first cart of PAIR goes through aisles 1 and 2, the second along the front to aisle 3 and into slot 1.
        carts = carts_of(by_hand.PAIR, by_hand.LAYOUT)
        self.assertEqual([0, 6, 6, 5, 6, 2], [carts.near[cart].to(slot) for cart, slot in (
            (0, (2, 3)), (0, (3, 1)), (0, (3, 4)), (1, (2, 3)), (1, (3, 4)), (1, (3, 2)))])
        self.assertEqual(2 * 6, carts.strays('1-4-L', '3-1-L'))

    def test_those_that_save_most_come_first(self):
        found = candidates.Candidates(carts_of(FORTY), ROWS).singles()
        self.assertEqual(((SAVES,), 40), found[0])
        self.assertEqual(3, len(found))
        rows = {'1-1-L': 'A', '1-1-R': 'C', '1-2-L': 'E', '2-4-L': 'B', '2-4-R': 'D'}
        pairs = candidates.Candidates(carts_of([*FORTY[:4], *TWIN, *FORTY[9:]]), rows).pairs()
        self.assertEqual(48, pairs[0][1])
        self.assertEqual({'1-1-R', '1-2-L', '2-4-L', '2-4-R'}, {place for pair in pairs[0][0] for place in pair})

    def test_rows_of_one_article_are_not_exchanged(self):
        found = candidates.Candidates(carts_of(FORTY), {**ROWS, '1-1-R': 'B'}).singles()
        self.assertNotIn((SAVES,), [move for move, _ in found])


class Judged(unittest.TestCase):
    """The search over a planner whose answers are given."""

    def search(self, after):
        search = slot_search.Search.__new__(slot_search.Search)
        search.planner, search.day, search.left, search.tried = self, Day(), 5, {}
        search.moves, search.progress, search.now, self.after = [], None, slot_search.Walked(42, 2), after
        return search

    def plan_all(self, runs, take, progress):
        return self.after[:len(runs)]

    def test_a_refusal_or_other_units_save_nothing(self):
        moves = [(SAVES,), (('1-1-L', '1-1-R'),), (('1-1-L', '2-1-L'),)]
        search = self.search([slot_search.Walked(2, 2), slot_search.Walked(0, 1), 'refused'])
        search.judge(moves)
        self.assertEqual([40, 0, 0], [search.tried[move] for move in moves])
        self.assertEqual(2, search.left)

    def test_what_was_judged_before_is_judged_again_where_it_saved(self):
        search, moves = self.search([]), [((pair,), 5 - place) for place, pair in enumerate('abcd')]
        search.tried = {('b',): 0, ('c',): 30}
        self.assertEqual([('c',), ('a',), ('d',)], search.worth(moves))


class Day:
    """A day whose files don't matter."""

    files = {'stock': exchanges._file([[b'location', b'article', b'on_hand']]), 'desks': b'desk,command,arguments\n'}

    def with_files(self, **files):
        return self

    def run(self):
        return None


class Pays(unittest.TestCase):
    def test_after_how_many_days_an_exchange_pays(self):
        for saves, cost, due in ((40, 0, 1), (40, 39, 1), (40, 40, 2), (40, 80, 3), (0, 0, None), (-1, 0, None)):
            self.assertEqual(due, slotting.Exchange([], 100, 100 - saves, cost).pays_after())

    def test_they_pay_up_to_the_first_that_does_not(self):
        some = [slotting.Exchange([], 100, 100 - saves, 60) for saves in (40, 25, 31, 70)]
        self.assertEqual([0, 1, 4], [slotting.taken_of(some, days) for days in (1, 2, 3)])


if __name__ == '__main__':
    unittest.main()
