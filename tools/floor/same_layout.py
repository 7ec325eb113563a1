"""Whether days are of one layout: of a layout that is given, or else as far as their tours and rows tell it.

A tour tells where the depot lies, which slot is the back end where it changes aisles there, and by its length an
equation between the lengths of a layout. Days are told apart by the first two, or where no lengths solve the equations
of all of them.
"""

from collections import Counter

from opinion import tours

from . import warehouse
from .output import slot_of
from .trouble import Trouble

# Equations are reckoned modulo this prime, which is quick. Lengths that solve them all solve them so too: so days of
# one layout are never told apart.
PRIME = 2 ** 61 - 1
WHOLE = 'whole'  # stands for 1 in an equation, beside the unknown lengths
FROM_SLOT, FROM_END = 'from slot to slot', 'from an end to a slot'


class Equations:
    """Linear equations that can be solved together: each is a sum that comes to 0, with factors by their unknowns."""

    def __init__(self):
        self.solved = {}  # of an unknown the sum that it comes to, of unknowns that are in no key here

    def add(self, factors):
        """Adds an equation. Gives whether all can be solved still."""
        left = self.without_solved(factors)
        name = next((name for name in left if name != WHOLE), None)
        if name is None:
            return not left
        inverse = -pow(left.pop(name), -1, PRIME)
        told = {other: factor * inverse % PRIME for other, factor in left.items()}
        for known, factors in self.solved.items():
            if name in factors:
                self.solved[known] = _joined(factors, name, told)
        self.solved[name] = told
        return True

    def without_solved(self, factors):
        """A sum with what is told of its unknowns in their place."""
        factors = dict(factors)
        for name in [name for name in factors if name in self.solved]:
            factors = _joined(factors, name, self.solved[name])
        return factors


def _joined(factors, name, told):
    """A sum with another one in the place of an unknown."""
    found = dict(factors)
    times = found.pop(name)
    for other, factor in told.items():
        found[other] = (found.get(other, 0) + times * factor) % PRIME
    return {other: factor for other, factor in found.items() if factor}


def batches_of(day):
    return [(wave, batch) for wave in day.waves for batch in wave.batches if batch.tour]


def back_of(day):
    """The slot that is the back end of an aisle, None where no tour comes there."""
    for _, batch in batches_of(day):
        for (aisle, slot), (other, _) in zip(batch.tour, batch.tour[1:]):
            if aisle != other and slot:
                return slot
        if batch.tour[0][1]:
            return batch.tour[0][1]
    return None


def deepest_of(day):
    """The greatest slot at which a row lies, 0 where there is none."""
    return max((slot_of(row.location)[1] for row in day.rows), default=0)


def equation_of(batch, back):
    """The equation of a tour: how often it goes each length, and what that comes to. None where it is no walk."""
    counts = Counter()
    for (aisle, slot), (other, place) in zip(batch.tour, batch.tour[1:]):
        if abs(aisle - other) + abs(slot - place) != 1:
            return None
        if aisle != other:
            counts['from aisle %d to the next' % min(aisle, other)] += 1
        else:
            counts[FROM_END if {slot, place} & {0, back} else FROM_SLOT] += 1
    return {**counts, WHOLE: -batch.length % PRIME} if batch.length % PRIME else dict(counts)


class Told:
    """What the days so far tell of their layout."""

    def __init__(self):
        self.equations, self.depot, self.back, self.deepest, self.days = Equations(), None, None, None, 0

    def test(self, name, day):
        """Fails where a day can't be of the layout of those before it."""
        self.days += 1
        for _, batch in batches_of(day):
            begin = batch.tour[0]
            self.depot = self.depot or (begin, name)
            if begin != self.depot[0]:
                self.fail(name, 'a tour begins at %d-%d, and one of %s at %d-%d'
                          % (*begin, self.depot[1], *self.depot[0]))
        back = back_of(day)
        self.test_back(name, back, deepest_of(day))
        equations = [equation_of(batch, back) for _, batch in batches_of(day)]
        if None in equations or not all(map(self.equations.add, equations)):
            self.fail_lengths(name, equations)

    def test_back(self, name, back, deepest):
        """Tests the back end of a day, if it tells one, and the deepest of its rows."""
        if back and self.back and back != self.back[0]:
            self.fail(name, 'the back end of its aisles is slot %d, and in %s slot %d' % (back, *self.back[::-1]))
        self.back = self.back or (back and (back, name))
        if not self.deepest or deepest > self.deepest[0]:
            self.deepest = (deepest, name)
        if self.back and self.deepest[0] >= self.back[0]:
            self.fail(name, '%s has a row at slot %d, and in %s slot %d is the back end of an aisle'
                      % (*self.deepest[::-1], *self.back[::-1]))

    def fail_lengths(self, name, equations):
        """Fails for lengths of tours: of the day alone, where no layout gives it these, or else beside the others."""
        alone = Equations()
        if None in equations or not all(map(alone.add, equations)):
            raise Trouble('no layout gives the tours of %s the lengths that it says: was it changed?' % name)
        self.fail(name, 'no layout gives the tours of both their lengths')

    def fail(self, name, why):
        if self.days == 1:
            raise Trouble('the tours of %s are of no one layout: %s. Was it changed?' % (name, why))
        raise Trouble('%s is of another layout than the days before it: %s. A report is of days of one layout'
                      % (name, why))


class Given:
    """A layout that was given, of which all days are."""

    def __init__(self, path):
        self.layout = warehouse.read_layout(path)

    def test(self, name, day):
        try:
            warehouse.test_fits(self.layout, day)
        except Trouble as why:
            raise Trouble('%s: %s' % (name, why)) from None
        for row in day.rows:
            if not self.layout.has(*slot_of(row.location)):
                raise Trouble('%s has a row at %s, which the layout has not: is it the layout of this day?'
                              % (name, row.location))
        for wave, batch in batches_of(day):
            if tours.walked(self.layout, batch.tour) != batch.length:
                raise Trouble('%s: the tour of %s, batch %d, is not as long in the layout as on its sheet: is it the '
                              'layout of this day?' % (name, wave.name, batch.number))
