"""Which exchanges of two rows of a stock are worth a run: those that shorten the tours of a planned day most, as its
carts are made up."""

import itertools
from bisect import bisect
from collections import Counter
from functools import lru_cache

from opinion.tours import Lengths, gathered

from .exchanges import by_location, swapped
from .output import slot_of
from .pages import walked

COSTLY, NEAR = 16, 30  # so many rows that add most, and so many places for each of them
COSTLY_PAIRS, NEAR_EACH = 10, 6  # so many pairs of rows that add most together, and places for each row of a pair


@lru_cache(maxsize=None)
def lengths_in(layout):
    return Lengths(layout)


@lru_cache(maxsize=1 << 18)
def shortest(layout, points):
    """The length of a shortest tour past some slots."""
    return lengths_in(layout).shortest(gathered(points))


def nearest(ordered, value):
    """How far a value lies from the nearest of some that are in order."""
    place = bisect(ordered, value)
    return min(abs(each - value) for each in ordered[max(place - 1, 0):place + 1])


class Near:
    """How far slots lie from a tour: within their aisle where that comes into it, else along one of the cross aisles.
    """

    def __init__(self, layout, tour):
        self.layout, self.found, self.within, ends = layout, {}, {}, {0: set(), layout.length(): set()}
        for aisle, slot in set(tour):
            depth = layout.depth(slot)
            self.within.setdefault(aisle, set()).add(depth)
            ends.get(depth, set()).add(layout.across(aisle))
        self.within = {aisle: sorted(depths) for aisle, depths in self.within.items()}
        self.ends = [(end, sorted(places)) for end, places in ends.items() if places]

    def to(self, slot):
        if slot not in self.found:
            self.found[slot] = self.measured(slot[0], self.layout.depth(slot[1]))
        return self.found[slot]

    def measured(self, aisle, depth):
        if aisle in self.within:
            return nearest(self.within[aisle], depth)
        across = self.layout.across(aisle)
        return min(nearest(places, across) + abs(end - depth) for end, places in self.ends)


@lru_cache(maxsize=1 << 14)
def near(layout, tour):
    return Near(layout, tour)


class Carts:
    """The carts of a planned day, and how long their tours are where articles lie elsewhere."""

    def __init__(self, layout, day):
        self.layout, self.at = layout, {}
        self.carts = [batch for wave in walked(day) for batch in wave.batches]
        self.near = [near(layout, tuple(batch.tour)) for batch in self.carts]
        picked = [(place, pick.location) for place, batch in enumerate(self.carts) for pick in batch.picks]
        self.picks = Counter(location for _, location in picked)  # how often is picked at a location
        for place, location in dict.fromkeys(picked):
            self.at.setdefault(location, []).append(place)  # and by which carts

    def places(self, locations):
        """The carts that pick at some locations."""
        return {place for location in locations for place in self.at.get(location, ())}

    def length(self, place, where):
        """How long a cart's tour is where articles lie elsewhere, or nowhere."""
        there = (where.get(pick.location, pick.location) for pick in self.carts[place].picks)
        return shortest(self.layout, frozenset(slot_of(location) for location in there if location))

    def shorter_by(self, where):
        """By how much the tours of all carts are shorter where articles lie elsewhere, or nowhere."""
        return sum(self.carts[place].length - self.length(place, where) for place in self.places(where))

    def adds(self, *locations):
        """How much some locations add to the tours of their carts."""
        return self.shorter_by(dict.fromkeys(locations))

    def saving(self, exchanges):
        """What exchanges save while the carts are made up as they are."""
        return self.shorter_by(swapped(exchanges))

    def strays(self, location, other):
        """How far the carts of a location would stray to another one, at most."""
        slot = slot_of(other)
        return 2 * sum(self.near[place].to(slot) for place in self.at.get(location, ()))


class Candidates:
    """The exchanges that are worth a run, over the rows of a stock that take part in none yet."""

    def __init__(self, carts, rows):
        self.carts, self.rows = carts, rows
        self.added = {location: carts.adds(location) for location in rows}

    def places_for(self, location, count):
        """So many locations with which a row is best exchanged, by how far carts would stray."""
        def cost(other):
            stray = self.carts.strays(location, other) + self.carts.strays(other, location)
            return stray - self.added[other], by_location(other)
        others = [other for other, article in self.rows.items() if article != self.rows[location]]
        return sorted(others, key=cost)[:count]

    def by_saving(self, moves):
        """Moves with what they save while carts are made up as they are: those that save most first."""
        found = {move: self.carts.saving(move) for move in moves}
        return sorted(found.items(), key=lambda it: (-it[1], [tuple(map(by_location, each)) for each in it[0]]))

    def singles(self):
        """Single exchanges of the rows that add most to the tours of their carts."""
        costly = sorted((each for each in self.rows if each in self.carts.at), key=lambda it: -self.added[it])[:COSTLY]
        return self.by_saving((exchange(one, other),) for one in costly for other in self.places_for(one, NEAR))

    def pairs(self):
        """Two exchanges at once, of two rows of one aisle that the same carts pick at."""
        together = {pair for batch in self.carts.carts for pair in pairs_of(batch) if set(pair) <= self.rows.keys()}
        costly = sorted(together, key=lambda pair: (-self.carts.adds(*pair), pair))[:COSTLY_PAIRS]
        moves = (tuple(sorted((exchange(one, first), exchange(other, second)))) for one, other in costly
                 for first, second in itertools.product(self.places_for(one, NEAR_EACH),
                                                        self.places_for(other, NEAR_EACH))
                 if len({one, other, first, second}) == 4)
        return self.by_saving(moves)


def exchange(one, other):
    """An exchange of two locations, in their order."""
    return tuple(sorted((one, other), key=by_location))


def pairs_of(batch):
    """The pairs of locations in one aisle at which a cart picks."""
    locations = sorted({pick.location for pick in batch.picks}, key=by_location)
    return [pair for pair in itertools.combinations(locations, 2) if slot_of(pair[0])[0] == slot_of(pair[1])[0]]
