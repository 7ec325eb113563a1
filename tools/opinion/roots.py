"""Brackets of the linear bound of a wave, and that bound itself, as docs/BATCHES.md tells them.

The linear bound is found by the simplex method (Dantzig, 1951) over all permitted batches, in whole numbers over one
denominator. After a step that brings the cost no lower the next one goes by the first batch that helps, so that no
cover comes back (Bland, 1977).
"""

import re
from fractions import Fraction

from .certificates import PARTS

NUMBER = '(0|[1-9][0-9]*)'
LINE = re.compile('root %s %s over ([1-9][0-9]*) (narrow|open)' % (NUMBER, NUMBER))
MOST_BATCHES = 1000  # so many permitted batches that the linear bound is found quickly


def permitted(wave, most=MOST_BATCHES):
    """All batches that a cart of the wave takes, those of one order first, or None where there are more than so many.
    """
    orders, found = len(wave.orders), []
    grown = [(order,) for order in range(orders)]
    while grown:
        found += grown
        if len(found) > most:
            return None
        wider = (batch + (order,) for batch in grown for order in range(batch[-1] + 1, orders))
        grown = [batch for batch in wider if wave.fits(batch)]
    return found


class Cover:
    """A fractional cover of so many orders by as many batches: at first by each order alone, which the first batches
    are.

    Each batch that it has is kept with a row, whose sum is its weight. Rows and weights are over one denominator.
    
    """

    def __init__(self, orders, batches, lengths):
        self.batches, self.lengths, self.over = batches, lengths, 1
        self.places = list(range(orders))
        self.rows = [[int(place == order) for order in range(orders)] for place in range(orders)]

    def weights(self):
        """The weight of each batch that it has, by their places."""
        return dict(zip(self.places, map(sum, self.rows)))

    def duals(self):
        """What each order pays, so that the orders of each batch that it has pay for its length."""
        lengths = [self.lengths[place] for place in self.places]
        return [sum(length * entry for length, entry in zip(lengths, column)) for column in zip(*self.rows)]

    def cost(self):
        return Fraction(sum(weight * self.lengths[place] for place, weight in self.weights().items()), self.over)

    def missing(self, takes_first):
        """The place of a batch whose orders pay for more than its length: the first one, or that for which they pay
        most too much. Else None."""
        duals = self.duals()
        surplus = (sum(duals[order] for order in batch) - self.over * length
                   for batch, length in zip(self.batches, self.lengths))
        found = ((place, most) for place, most in enumerate(surplus) if most > 0)
        return (next(found, (None, 0)) if takes_first else max(found, key=lambda each: each[1], default=(None, 0)))[0]

    def take(self, place):
        """Takes a batch in, for the one whose weight it is the first to bring to 0. Tells whether that brings the cost
        down."""
        entries = [sum(row[order] for order in self.batches[place]) for row in self.rows]
        left = min((number for number, entry in enumerate(entries) if entry > 0),
                   key=lambda number: (Fraction(sum(self.rows[number]), entries[number]), self.places[number]))
        pivot, given = entries[left], self.rows[left]
        self.rows = [given if number == left else [(pivot * old - entry * new) // self.over
                                                   for old, new in zip(row, given)]
                     for number, (entry, row) in enumerate(zip(entries, self.rows))]
        self.places[left], self.over = place, pivot
        return sum(given) > 0


def cheapest_cover(wave, batches):
    """A cheapest fractional cover of a wave, whose permitted batches these are."""
    cover, falls = Cover(len(wave.orders), batches, list(map(wave.length, batches))), True
    while (place := cover.missing(not falls)) is not None:
        falls = cover.take(place)
    return cover


def judge_root(lines, name, wave, cost, duals, rounds):
    """Judges the line of a bracket: of a wave, what its tours come to, feasible duals of it in sixtieths, and for
    how many rounds its budget pays, None where that isn't told."""
    found = LINE.fullmatch(lines.next())
    lines.test(found, 'no bracket of %s' % name)
    low, high, over = (int(found[place]) for place in (1, 2, 3))
    lines.test(low <= high, 'the bracket of %s is empty' % name)
    lines.test(low <= cost * over, 'the bracket of %s is above its cost' % name)
    lines.test(duals * over <= PARTS * high, 'the bracket of %s is below the duals of its root' % name)
    is_narrow = PARTS * (high - low) < len(wave.orders) * over
    lines.test(found[4] == 'open' or is_narrow, 'the bracket of %s is not narrow' % name)
    lines.test(found[4] == 'narrow' or not is_narrow, 'the bracket of %s is open, and meets the test of narrow' % name)
    lines.test(PARTS * low >= max(duals, sum(wave.shares())) * over,
               'the bracket of %s begins below known duals' % name)
    lines.test(high <= cost * over, 'the bracket of %s ends above its cost' % name)
    batches = permitted(wave)
    if batches is not None:
        _judge_sides(lines, name, cheapest_cover(wave, batches).cost(), (Fraction(low, over), Fraction(high, over)))
    if found[4] == 'open':
        is_paid = None not in (batches, rounds) and rounds >= len(batches)
        lines.test(not is_paid, 'the bracket of %s is open, ' % name
                   + 'where its budget pays for as many rounds as there are batches')


def _judge_sides(lines, name, bound, sides):
    """The two sides of a bracket, against the linear bound."""
    low, high = sides
    lines.test(low <= bound, 'the bracket of %s lies above its linear bound, which is %s' % (name, bound))
    lines.test(high >= bound, 'the bracket of %s lies below its linear bound, which is %s' % (name, bound))
