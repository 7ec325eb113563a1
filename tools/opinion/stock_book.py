"""The rules of the stock: what each command is answered and what it does, as docs/RULES.md tells it."""

from collections import namedtuple

MOST_IN_WAVE = 64
MOST_ON_HAND = 1000000

# What a step did beside its reply: for a release all that the wave holds, for a refill what was held, as (row, order,
# units) in order of both.
Step = namedtuple('Step', 'reply held')


class Wave:
    """A wave of orders: its state, whether a unit of it was picked, and how many units each row holds for each of its
    orders."""

    def __init__(self, orders):
        self.orders, self.state, self.picked, self.holds = orders, 'submitted', False, {}

    def held(self):
        """What it holds, by row and then by the order's place in the wave."""
        return [(row, self.orders[place], units) for (row, place), units in sorted(self.holds.items())]

    def take(self, key, units):
        self.holds[key] -= units
        if not self.holds[key]:
            del self.holds[key]


class Row:
    """A row of the stock: units on hand, of which some are free."""

    def __init__(self, location, article, on_hand):
        self.location, self.article, self.on_hand, self.free = location, article, on_hand, on_hand


class Refused(Exception):
    """Why a command is refused."""


class Book:
    """The stock as it stands, over an opening."""

    def __init__(self, stock, orders, units=None):
        self.rows = [Row(*each) for each in stock.rows]
        self.at = {row.location: number for number, row in enumerate(self.rows)}
        self.of_article = {}
        for number, row in enumerate(self.rows):
            self.of_article.setdefault(row.article, []).append(number)
        self.articles, self.orders, self.units = stock.articles, orders, units
        self.waves, self.taken = {}, {}

    def step(self, command):
        """Answers a command, and does it."""
        word, arguments = command[0], command[1:]
        try:
            return getattr(self, word)(*arguments)
        except Refused as why:
            return Step('refused %s' % why, [])

    def wave(self, name, states):
        if name not in self.waves:
            raise Refused('unknown-wave')
        wave = self.waves[name]
        if wave.state not in states:
            raise Refused('wrong-state %s' % wave.state)
        return wave

    def submit(self, name, *orders):
        if not orders:
            raise Refused('no-orders')
        if len(orders) > MOST_IN_WAVE:
            raise Refused('wave-full %d' % len(orders))
        if name in self.waves:
            raise Refused('known-wave')
        for place, order in enumerate(orders):
            self.test_order(order, orders[:place])
        self.waves[name] = Wave(list(orders))
        self.taken.update((order, name) for order in orders)
        return Step('submitted', [])

    def test_order(self, order, before):
        if order not in self.orders:
            raise Refused('unknown-order %s' % order)
        if order in before:
            raise Refused('order-twice %s' % order)
        if order in self.taken:
            raise Refused('order-taken %s %s' % (order, self.taken[order]))
        units = sum(quantity for _, quantity in self.orders[order])
        if self.units is not None and units > self.units:
            raise Refused('over-cart %s %d' % (order, units))

    def wanted(self, wave):
        """Of each article, in the order of the stock file, what each order of a wave wants."""
        wants = {}
        for place, order in enumerate(wave.orders):
            for article, quantity in self.orders[order]:
                of = wants.setdefault(article, {})
                of[place] = of.get(place, 0) + quantity
        return [(article, sorted(wants[article].items())) for article in self.articles if article in wants]

    def free_of(self, article, without=None):
        """The rows of an article, but for one, with what is free there."""
        return [(row, self.rows[row].free) for row in self.of_article[article] if row != without]

    def cover(self, wave):
        """Holds all that a wave wants, or refuses it for the first article of which too little is free."""
        wants = self.wanted(wave)
        for article, of in wants:
            wanted, free = sum(units for _, units in of), sum(units for _, units in self.free_of(article))
            if wanted > free:
                raise Refused('short %s %d %d' % (article, wanted, free))
        for article, of in wants:
            self.hold(wave, by_overlap(self.free_of(article), of))

    def hold(self, wave, taken):
        for row, place, units in taken:
            self.rows[row].free -= units
            wave.holds[row, place] = wave.holds.get((row, place), 0) + units

    def allot(self, name):
        wave = self.wave(name, ('submitted',))
        self.cover(wave)
        wave.state = 'allotted'
        return Step('allotted', [])

    def release(self, name):
        wave = self.wave(name, ('submitted', 'allotted'))
        if wave.state == 'submitted':
            self.cover(wave)
        wave.state = 'released'
        return Step('released', wave.held())

    def cancel(self, name):
        wave = self.wave(name, ('submitted', 'allotted', 'released'))
        if wave.picked:
            raise Refused('picking')
        for (row, _), units in wave.holds.items():
            self.rows[row].free += units
        wave.holds, wave.state = {}, 'cancelled'
        for order in wave.orders:
            del self.taken[order]
        return Step('cancelled', [])

    def held_at(self, name, order, location, quantity):
        """The wave of a pick or of missing units, and its hold there."""
        wave = self.wave(name, ('released',))
        key = self.at.get(location), wave.orders.index(order) if order in wave.orders else None
        if key not in wave.holds:
            raise Refused('not-held %s' % (location,))
        if wave.holds[key] < quantity:
            raise Refused('too-much %d' % wave.holds[key])
        return wave, key

    def take(self, wave, key, quantity):
        wave.take(key, quantity)
        self.rows[key[0]].on_hand -= quantity

    def end_where_done(self, wave):
        if not wave.holds:
            wave.state = 'done'

    def pick(self, name, order, location, quantity):
        wave, key = self.held_at(name, order, location, quantity)
        self.take(wave, key, quantity)
        wave.picked = True
        self.end_where_done(wave)
        return Step('picked', [])

    def missing(self, name, order, location, quantity):
        wave, key = self.held_at(name, order, location, quantity)
        self.take(wave, key, quantity)
        article = self.rows[key[0]].article
        free = self.free_of(article, without=key[0])
        if sum(units for _, units in free) < quantity:
            self.end_where_done(wave)
            return Step('lost %s %d' % (article, quantity), [])
        taken = by_overlap(free, [(key[1], quantity)])
        self.hold(wave, taken)
        return Step('refilled %d' % quantity, [(row, order, units) for row, _, units in taken])

    def receive(self, location, article, quantity):
        if location not in self.at:
            raise Refused('no-row')
        row = self.rows[self.at[location]]
        if row.article != article:
            raise Refused('other-article %s' % row.article)
        if row.on_hand + quantity > MOST_ON_HAND:
            raise Refused('too-many %d' % row.on_hand)
        row.on_hand += quantity
        row.free += quantity
        return Step('received', [])


def by_overlap(free, wants):
    """Lays what is free in rows, and what orders want, end to end on one line: an order takes what its piece and a
    row's have in common."""
    taken, pieces = [], iter(free)
    row, left = next(pieces, (None, 0))
    for place, wanted in wants:
        while wanted:
            while not left:
                row, left = next(pieces)
            units = min(left, wanted)
            taken.append((row, place, units))
            left -= units
            wanted -= units
    return taken


def command_text(command):
    """A command as the journal writes it."""
    return ' '.join(map(str, command))
