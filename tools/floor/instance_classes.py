"""Classes of instances as the literature makes them, as far as they are known here, drawn from a seed.

The draws are those of made days (docs/FORMATS.md). One seed begins the same draws whatever the cart is, so that one
set of orders is tried with each cart, and the orders of a smaller instance are the first of a larger one.
"""

from collections import Counter, namedtuple

from opinion.layouts import Layout
from opinion.making import Draws

from .instances import Instance, Order, test_cart, test_orders

AISLES, SLOTS = 10, 45
LAYOUT = Layout(AISLES, SLOTS, 1, 1, (5,) * (AISLES - 1), 1, False)
OF_AISLE = 2 * SLOTS  # the places of an aisle, slot by slot, and of a slot left and right
# The classes of articles by demand: how much of it a class and those before it have in percent, and its aisles.
SHARES = ((52, 1, 1), (88, 2, 4), (100, 5, 10))
SEEDS = (0, 2 ** 64 - 1)

# A class: its name, how articles may be asked for, how many orders instances have, how many units and orders carts
# take, how many articles an order has, and what is to be known of it. Without a number of units a cart takes any.
Class = namedtuple('Class', 'name demands orders units capacities articles told')


def location_of(place):
    """The location of a place, counted from 0 on."""
    aisle, rest = divmod(place, OF_AISLE)
    return '%d-%d-%s' % (1 + aisle, 1 + rest // 2, 'LR'[rest % 2])


def uniform_place(draws):
    """Any of all places."""
    return draws.below(AISLES * OF_AISLE)


def place_by_class(draws):
    """First the class of the article by its share of the demand, then any of the places of that class."""
    percent = draws.below(100)
    first, last = next((first, last) for below, first, last in SHARES if percent < below)
    return (first - 1) * OF_AISLE + draws.below((last - first + 1) * OF_AISLE)


DEMANDS = {'abc': place_by_class, 'uniform': uniform_place}


def drawn_order(draws, name, articles, demand):
    """An order: how many articles it has, and then each. An article that is drawn again is wanted once more."""
    least, most = articles
    count = least + draws.below(most - least + 1)
    found = Counter(location_of(DEMANDS[demand](draws)) for _ in range(count))
    return Order(name, tuple(found.items()))


def drawn_orders(seed, count, articles, demand):
    """The orders O1, O2 and so on."""
    draws = Draws(seed)
    return tuple(drawn_order(draws, 'O%d' % number, articles, demand) for number in range(1, count + 1))


HENN_WAESCHER = Class(
    'henn-waescher', ('abc', 'uniform'), (40, 60, 80, 100), (30, 45, 60, 75), None, (5, 25),
    'After Henn and Waescher (2012), as it is known here. There are ten aisles of 45 slots, with a place on each side '
    'of a slot. The pitch and the clearance are 1, the spacing is 5, and the depot is the front end of aisle 1. There '
    'are 40, 60, 80 or 100 orders of 5 to 25 articles, each number as likely as the others. With the demand abc, 52 % '
    'of the articles come from aisle 1, 36 % from aisles 2 to 4 and 12 % from the others; with the demand uniform, '
    'each place is as likely. A cart takes 30, 45, 60 or 75 articles. What differs here: tours are shortest ones, and '
    'not those of a rule. A cart takes at most 8 orders; one of 30 articles has room for 6 at most. A wave has at most '
    '64 orders, so more are cut into waves in their order, as equal as can be, and no cart has orders of two waves. An '
    'order may want an article twice.')
GADEMANN_VELDE = Class(
    'gademann-velde', ('uniform',), (8, 16, 24, 32), (None,), (2, 4, 6, 8), (1, 10),
    'After Gademann and van de Velde (2005), as it is known here: up to 32 orders, and a cart takes up to 8 of them, '
    'whatever they hold. Their warehouses and the sizes of their orders are not known here. In their place stand the '
    'aisles and the depot of henn-waescher, and orders of 1 to 10 articles, each number and each place as likely. '
    'There are 8, 16, 24 or 32 orders, and a cart takes 2, 4, 6 or 8 of them.')
CLASSES = {each.name: each for each in (HENN_WAESCHER, GADEMANN_VELDE)}
MOST_CAPACITY = 8


def capacities_of(kind, units):
    """How many orders a cart takes: of a class that counts articles as many as may fit, and at most 8."""
    if kind.capacities is not None:
        return kind.capacities
    return (MOST_CAPACITY if units is None else max(1, min(MOST_CAPACITY, units // kind.articles[0])),)


def name_of(kind, demand, count, cart, seed):
    """The name of an instance, which says how it is drawn."""
    capacity, units = cart
    parts = [kind.name, *([demand] if len(kind.demands) > 1 else []), count, 'capacity', capacity,
             *([] if units is None else ['units', units]), 'seed', seed]
    return '-'.join(map(str, parts))


def drawn(kind, demand, count, cart, seed):
    """An instance of a class. The cart says how many orders and how many units it takes."""
    found = Instance(name_of(kind, demand, count, cart, seed), LAYOUT, *cart,
                     drawn_orders(seed, count, kind.articles, demand))
    test_orders(found)
    test_cart(found)
    return found
