"""Divides orders before they are submitted: those that no cart takes, and those of which the stock covers a part alone.

usage: tools/wave split --layout FILE --stock FILE --orders FILE [options] -o split.csv

In a run an order stays whole, and so does its wave: one order over the cart, or one line that isn't covered, holds up
all the others. So both are taken apart in the order file. The orders are gone through as they stand there, and each
line in its turn is covered where what is left of its article, of all rows of the stock together, is enough for it.

- Lines of an order ORDER that aren't covered, where another is, go to a back order ORDER.b behind it. Of an order of
  which nothing is covered no line is moved.
- With --units U an order of more units, a back order too, becomes ORDER.1, ORDER.2 and so on of at most U units. Lines
  of at most U units stay whole, each in the first of them that has room; a longer one fills as many as it can before.

  --units U        what a cart holds, as in a plan: nothing is divided by units where it isn't given
  --no-back-orders lines that aren't covered stay where they are
  -o FILE          write FILE, whole or not at all, in the place of standard output; it may be the order file

The stock may be the one that `tools/wave closing-stock DAY --free` writes of a day that goes on. What is divided is
told on standard error, a line for each order. Nothing here is proved; waveplan reads what comes of it by its own tests.

Status: 0, or 2 where the words aren't right, a file can't be read or would be refused, or a new name is taken or too
long; 4 where the output can't be written.
"""

import sys
from collections import Counter, namedtuple

from endings import RIGHT, Trouble, Words, tell_usage
from opinion import tables
from opinion.refusals import Refusal

from . import whole_files
from .planning import whole
from .trouble import read_bytes
from .warehouse import read_layout

MOST_UNITS = 40000000
MOST_SIGNS = 40
NEEDED = ('layout', 'stock', 'orders')

Order = namedtuple('Order', 'name lines')  # its lines: an article and a quantity each
Divided = namedtuple('Divided', 'orders told')  # what became of an order, and what is told of it, if anything


def covered_lines(lines, left):
    """The lines that are covered one after the other by what is left of each article, and the others."""
    taken, back = Counter(), []
    covered = []
    for article, quantity in lines:
        if taken[article] + quantity <= left[article]:
            taken[article] += quantity
            covered.append((article, quantity))
        else:
            back.append((article, quantity))
    return covered, back


def parted(order, left):
    """An order whose lines are covered, and its back order, if it has one. What is covered is taken from what is left.
    """
    covered, back = covered_lines(order.lines, left)
    for article, quantity in covered:
        left[article] -= quantity
    if not covered:
        return Divided([order], '%s: nothing of it is covered' % order.name)
    if not back:
        return Divided([order], None)
    moved = ', '.join('%d %s' % (quantity, article) for article, quantity in back)
    return Divided([Order(order.name, covered), Order(order.name + '.b', back)],
                   '%s: %s to the back order %s.b' % (order.name, moved, order.name))


def loads_of(lines, units):
    """Lines as loads of at most so many units: whole where that is possible."""
    loads, rooms = [], []

    def put(article, quantity):
        place = next((place for place, room in enumerate(rooms) if quantity <= room), len(rooms))
        if place == len(rooms):
            loads.append([])
            rooms.append(units)
        loads[place].append((article, quantity))
        rooms[place] -= quantity

    for article, quantity in lines:
        for _ in range((quantity - 1) // units):
            put(article, units)
        put(article, (quantity - 1) % units + 1)
    return loads


def loaded(order, units):
    """An order as orders that a cart takes."""
    total = sum(quantity for _, quantity in order.lines)
    if units is None or total <= units:
        return Divided([order], None)
    test_count(-(-total // units))
    parts = [Order('%s.%d' % (order.name, number), lines)
             for number, lines in enumerate(loads_of(order.lines, units), 1)]
    return Divided(parts, '%s: %d units, in %d orders, %s to %s'
                   % (order.name, total, len(parts), parts[0].name, parts[-1].name))


def test_count(count):
    """Fails where so many orders are too many."""
    if count > tables.MOST_ORDERS:
        raise Trouble('there would be %d orders or more, and there are at most %d: leave some out'
                      % (count, tables.MOST_ORDERS))


def divided(orders, left, units, backs):
    """All orders, and what is told of those that are divided or wait."""
    made, told = [], []
    for order in orders:
        one = parted(order, left) if backs else Divided([order], None)
        told += [one.told] if one.told else []
        for part in one.orders:
            loads = loaded(part, units)
            told += [loads.told] if loads.told else []
            made += loads.orders
    return made, told


def test_names(made, known):
    """Fails where an order that is new has a name that is too long or taken."""
    for name, count in Counter(order.name for order in made).items():
        if name not in known and len(name) > MOST_SIGNS:
            raise Trouble('%s would have %d signs, and a name has at most %d: shorten that of its order'
                          % (name, len(name), MOST_SIGNS))
        if count > 1:
            raise Trouble('%s stands in the order file already: give it another name there' % name)


def table_of(orders):
    """The order file of some orders."""
    lines = ['%s,%s,%d\n' % (order.name, article, quantity) for order in orders for article, quantity in order.lines]
    return ''.join(['order,article,quantity\n', *lines])


def read_day(asked):
    """The units of each article and the orders of the files that are named."""
    layout = read_layout(asked.layout)
    name = asked.stock
    try:
        stock = tables.read_stock(read_bytes(asked.stock), layout)
        name = asked.orders
        orders = tables.read_orders(read_bytes(asked.orders), stock)
    except Refusal as why:
        raise Trouble('%s would be refused: %s' % (name, why.line)) from None
    left = Counter()
    for row in stock.rows:
        left[row.article] += row.on_hand
    return left, [Order(*each) for each in orders.items()]


def asked_words(words):
    known = Words('split')
    for name in NEEDED:
        known.add_argument('--' + name)
    known.add_argument('--units', type=whole(1, MOST_UNITS))
    known.add_argument('--no-back-orders', action='store_true')
    known.add_argument('-o', '--output')
    return known.read(words)


def main(words):
    asked = asked_words(words)
    if asked.help or not all(getattr(asked, name) for name in NEEDED):
        return tell_usage(__doc__, asked)
    left, orders = read_day(asked)
    made, told = divided(orders, left, asked.units, not asked.no_back_orders)
    test_count(len(made))
    test_names(made, {order.name for order in orders})
    if asked.output:
        whole_files.write(asked.output, table_of(made))
    else:
        print(table_of(made), end='', flush=True)
    for line in [*told, '%d orders, of %d' % (len(made), len(orders))]:
        print(line, file=sys.stderr)
    return RIGHT
