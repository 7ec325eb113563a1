"""Which open orders go out, and in which waves, as docs/FORMATS.md tells it; and an output of `waves`, judged line by
line.

Who is served, and why the others are left, is found here by itself and has to be the same. Which orders of equal rank
go together is free, so there the output is held to what is right of waves, and each start to what some batching may
cost.
"""

import re
from collections import Counter, namedtuple
from itertools import groupby

from . import tours
from .days import Fault, Lines, shortened
from .journals import MOST_ENTRIES

WHOLE_GROUP = 'W'  # the group of all orders where there is no open file
FEW = 5  # so few orders that each batching of them is tried
NUMBER = '(0|[1-9][0-9]*)'
WAVE = re.compile('wave (\\S+) orders %s ranks %s %s start %s' % ((NUMBER,) * 4))

Open = namedtuple('Open', 'order group rank')

# What the files say after which waves go out, and what is asked of them: the book after the journal, which has so many
# entries, and the open orders.
Day = namedtuple('Day', 'layout book entries listed numbers')

# A wave of an output, and what the planner's start pays for it.
Told = namedtuple('Told', 'name orders start')

# What was judged.
Seen = namedtuple('Seen', 'waves left')


def open_without(book):
    """The open orders where there is no open file: all that lie in no wave that isn't cancelled."""
    return [Open(order, WHOLE_GROUP, 0) for order in book.orders if order not in book.taken]


class Turns:
    """The turns of the open orders, by rank: the served ones in the order in which they were served, and why others are
    left."""

    def __init__(self, day, receipts=None):
        """The turns as they would be with these receipts, by article."""
        self.book, self.served, self.left = day.book, [], {}
        self.free = {article: sum(units for _, units in self.book.free_of(article)) for article in self.book.articles}
        for article, units in (receipts or {}).items():
            self.free[article] += units
        waiting = [one for one in day.listed if self.waits(one)]
        for one in sorted(waiting, key=lambda one: one.rank):
            self.turn(one)

    def waits(self, one):
        """Whether an open order waits for its turn: it lies in no wave, and a cart takes it."""
        units = sum(quantity for _, quantity in self.book.orders[one.order])
        if one.order in self.book.taken:
            self.left[one.order] = 'in %s' % self.book.taken[one.order]
        elif self.book.units is not None and units > self.book.units:
            self.left[one.order] = 'over-cart %d' % units
        return one.order not in self.left

    def turn(self, one):
        """Serves an order where what is free in its turn covers it."""
        wanted = Counter()
        for article, quantity in self.book.orders[one.order]:
            wanted[article] += quantity
        for article in self.book.articles:
            if wanted[article] > self.free[article]:
                self.left[one.order] = 'short %s %d %d' % (article, wanted[article], self.free[article])
                return
        for article, quantity in wanted.items():
            self.free[article] -= quantity
        self.served.append(one)


def as_many(orders, most):
    """How many waves so many orders of a group are."""
    return -(-orders // most)


def how_many(served, numbers, entries):
    """How many waves go out: as many as are asked for, and as the journal has room for."""
    groups = Counter(one.group for one in served)
    waves = sum(as_many(orders, numbers['wave']) for orders in groups.values())
    return min(waves, numbers['most'], (MOST_ENTRIES - entries) // 2)


class Judge:
    """Goes through an output of `waves`."""

    def __init__(self, day, data):
        self.day, self.lines, self.turns = day, Lines(data), Turns(day)
        self.places = {one.order: place for place, one in enumerate(self.turns.served)}
        self.names, self.waves = [], []

    # The desk file

    def commands(self):
        """The waves that are submitted and released, one after the other."""
        desk = self.day.numbers['desk']
        self.lines.is_due('desks')
        self.lines.is_due('desk,command,arguments')
        while self.lines.peek() != 'end desks':
            found = re.fullmatch(r'%d,submit,([^,]+),(\S+)' % desk, self.lines.next())
            self.lines.test(found, 'no submit of desk %d' % desk)
            self.submitted(found[1], found[2].split(','))
            self.lines.is_due('%d,release,%s' % (desk, found[1]))
            reply = self.day.book.step(('release', found[1])).reply
            self.lines.test(reply == 'released', 'the release of %s is answered %r' % (found[1], reply))
        self.lines.next()

    def submitted(self, name, orders):
        """A wave that is submitted: of served orders, of one group, under its name."""
        for order in orders:
            self.lines.test(order in self.places, '%s is no served order: %s'
                            % (shortened(order), self.turns.left.get(order, 'it is not open')))
        places = [self.places[order] for order in orders]
        self.lines.test(places == sorted(places), 'the orders of %s do not stand as they were served' % name)
        wave = [self.turns.served[place] for place in places]
        self.lines.test(len({one.group for one in wave}) == 1, 'the orders of %s are of several groups' % name)
        self.lines.test(len(wave) <= self.day.numbers['wave'], '%s has more orders than a wave may have' % name)
        due = self.name_of(wave[0].group)
        self.lines.test(name == due, 'a wave is named %s where %s is due' % (shortened(name), due))
        reply = self.day.book.step(('submit', name, *orders)).reply
        self.lines.test(reply == 'submitted', 'the submit of %s is answered %r' % (name, reply))
        self.waves.append((name, wave))

    def name_of(self, group):
        """The name of the next wave of a group."""
        number = 1
        while '%s.%d' % (group, number) in self.day.book.waves:
            number += 1
        return '%s.%d' % (group, number)

    # What is right of all waves together

    def test_waves(self):
        """Those that go out are as many as are due, and the first of right waves of all served orders."""
        due = how_many(self.turns.served, self.day.numbers, self.day.entries)
        self.lines.test(len(self.waves) == due, '%d waves go out where %d are due' % (len(self.waves), due))
        firsts = [self.places[wave[0].order] for _, wave in self.waves]
        self.lines.test(firsts == sorted(firsts), 'the waves do not stand as their first orders were served')
        sent = {one.order for _, wave in self.waves for one in wave}
        self.later = [one for one in self.turns.served if one.order not in sent]
        for one in self.later:
            self.lines.test(not firsts or self.places[one.order] > firsts[-1],
                            '%s is told as later, and was served before the first order of the last wave' % one.order)
        for group in {one.group for one in self.turns.served}:
            self.test_group(group)

    def test_group(self, group):
        """Of two waves of a group the earlier one has no rank above one of the later, and there are as few as due."""
        most, orders = self.day.numbers['wave'], [one for one in self.turns.served if one.group == group]
        ranks = [[one.rank for one in wave] for _, wave in self.waves if wave[0].group == group]
        later = [one.rank for one in self.later if one.group == group]
        left = as_many(len(orders), most) - len(ranks)
        self.lines.test(left <= len(later) <= left * most and left >= 0,
                        'the %d orders of group %s are put into more or fewer waves than due' % (len(orders), group))
        rows = ranks + ([later] if later else [])
        for earlier, behind in zip(rows, rows[1:]):
            self.lines.test(max(earlier) <= min(behind),
                            'a wave of group %s has a rank above one of a later wave' % group)

    # The waves, and the orders that are left

    def wave_lines(self):
        self.lines.is_due('waves')
        for name, wave in self.waves:
            found = WAVE.fullmatch(self.lines.next())
            self.lines.test(found, 'no line of a wave')
            ranks = [one.rank for one in wave]
            due = (name, str(len(wave)), str(min(ranks)), str(max(ranks)))
            self.lines.test(found.groups()[:4] == due, 'the line of %s says %s where %s is due'
                            % (name, shortened(' '.join(found.groups()[:4])), ' '.join(due)))
            self.start(name, int(found[5]))
        self.lines.is_due('end waves')

    def start(self, name, start):
        """What a start pays lies between what no batching is cheaper than and what each order alone costs; of a few
        orders it is what some batching costs."""
        costs = Costs(self.day, name)
        least, most = costs.least(), sum(costs.alone)
        self.lines.test(least <= start <= most, 'the start of %s is %d, and each batching costs from %d to %d'
                        % (name, start, least, most))
        self.lines.test(len(costs.alone) > FEW or start in costs.all(),
                        'the start of %s is %d, which no batching costs' % (name, start))

    def left_lines(self):
        later = {one.order for one in self.later}
        self.lines.is_due('left')
        for one in self.day.listed:
            why = 'later' if one.order in later else self.turns.left.get(one.order)
            if why:
                self.lines.is_due('%s %s' % (one.order, why))
        self.lines.is_due('end left')

    def all(self):
        self.commands()
        self.test_waves()
        self.wave_lines()
        self.left_lines()
        self.lines.is_due('end')
        self.lines.end()
        return Seen(self.waves, len(self.later) + len(self.turns.left))


class Costs:
    """What batchings of a released wave cost."""

    def __init__(self, day, name):
        self.capacity, self.cart = day.numbers['capacity'], day.book.units
        self.lengths = tours.Lengths(day.layout)
        held = sorted(day.book.waves[name].held(), key=lambda each: each[1])
        self.slots, self.units = [], []
        for _, some in groupby(held, key=lambda each: each[1]):
            some = list(some)
            places = [day.book.rows[row].location for row, _, _ in some]
            self.slots.append(tours.gathered((place.aisle, place.slot) for place in places))
            self.units.append(sum(units for _, _, units in some))
        self.alone = [self.lengths.shortest(each) for each in self.slots]

    def least(self):
        """No batching costs less: a batch is no shorter than the tour of any of its orders, so that of the orders by
        falling lengths the first, and each behind so many as a batch has, are the least that the longest may be."""
        return sum(sorted(self.alone, reverse=True)[::self.capacity])

    def length(self, batch):
        slots = {}
        for order in batch:
            slots = tours.joined(slots, self.slots[order])
        return self.lengths.shortest(slots)

    def fits(self, batch):
        load = sum(self.units[order] for order in batch)
        return len(batch) <= self.capacity and (self.cart is None or load <= self.cart)

    def all(self):
        """What each batching costs."""
        return {sum(map(self.length, batches)) for batches in divided(len(self.slots)) if all(map(self.fits, batches))}


def divided(count):
    """All ways to divide so many orders into batches."""
    if not count:
        yield []
        return
    for batches in divided(count - 1):
        yield [*batches, (count - 1,)]
        for place, batch in enumerate(batches):
            yield [*batches[:place], (*batch, count - 1), *batches[place + 1:]]


def judge(day, data):
    """What an output has that is right. Fails with the first line that is wrong."""
    return Judge(day, data).all()


__all__ = ['Day', 'Fault', 'Open', 'Seen', 'Turns', 'how_many', 'judge', 'open_without']
