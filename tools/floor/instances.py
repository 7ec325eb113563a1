"""Instances of order batching: a block of aisles, a cart, and orders that pick at places. Each is a day of this
program."""

import re
from collections import Counter, namedtuple

from opinion import layouts, words

from .cells import NAME
from .import_table import MOST_LINES, MOST_ON_HAND, MOST_ORDERS, MOST_QUANTITY
from .output import slot_of
from .trouble import Trouble

# An instance: its name, its layout, how many orders and how many units a cart takes (None for any number), its orders.
Instance = namedtuple('Instance', 'name layout capacity units orders')
Order = namedtuple('Order', 'name picks')  # the picks are pairs of a location and a quantity

MOST_OF_WAVE = 64
TITLE = re.compile('[A-Za-z0-9_][A-Za-z0-9._-]{0,99}')  # the name of an instance, of which names of files are made
LAYOUT_RANGES = {**layouts.MOST, 'spacings': layouts.MOST['spacing']}
CAPACITIES = words.PLAN_NUMBERS['capacity']
UNITS = words.CART_NUMBERS['units']
BUDGETS = words.PLAN_NUMBERS['budget']
NODES = words.PLAN_NUMBERS['nodes']


def units_of(order):
    """How many units an order has."""
    return sum(quantity for _, quantity in order.picks)


def place_of(location):
    """What orders locations as the program does: aisle, slot, and L before R."""
    return (*slot_of(location), location[-1])


def wanted(instance):
    """How many units all orders want at each location, in the order of the locations."""
    found = Counter()
    for order in instance.orders:
        for location, quantity in order.picks:
            found[location] += quantity
    return {location: found[location] for location in sorted(found, key=place_of)}


def waves_of(instance):
    """The orders by their waves: as few waves as there may be, as equal as they can be, in the order of the orders."""
    count = len(instance.orders)
    waves = -(-count // MOST_OF_WAVE)
    size = -(-count // waves)
    return [instance.orders[start:start + size] for start in range(0, count, size)]


def test_order(instance, order):
    """Fails where an order is none that the program reads."""
    if not NAME.fullmatch(order.name):
        raise Trouble('%s is no name of an order, which has 1 to 40 letters, digits and signs - _ . alone'
                      % order.name[:80])
    if not 1 <= len(order.picks) <= MOST_LINES:
        raise Trouble('order %s has %d picks, and an order has 1 to %d' % (order.name, len(order.picks), MOST_LINES))
    for location, quantity in order.picks:
        if not instance.layout.has(*slot_of(location)):
            raise Trouble('order %s picks at %s, which the layout has not' % (order.name, location))
        if not 1 <= quantity <= MOST_QUANTITY:
            raise Trouble('order %s wants %d units at %s, where 1 to %d may be wanted'
                          % (order.name, quantity, location, MOST_QUANTITY))


def test_orders(instance):
    """Fails where the orders are none of a day that the program plans."""
    if not TITLE.fullmatch(instance.name):
        raise Trouble('%s is no name of an instance, which has 1 to 100 letters, digits and signs - _ . alone, and '
                      'begins with none of - and .' % instance.name[:80])
    if not 1 <= len(instance.orders) <= MOST_ORDERS:
        raise Trouble('instance %s has %d orders, and an instance has 1 to %d'
                      % (instance.name, len(instance.orders), MOST_ORDERS))
    names = Counter(order.name for order in instance.orders)
    for order in instance.orders:
        test_order(instance, order)
        if names[order.name] > 1:
            raise Trouble('instance %s has order %s twice' % (instance.name, order.name))
    for location, quantity in wanted(instance).items():
        if quantity > MOST_ON_HAND:
            raise Trouble('all orders want %d units at %s, and a location holds at most %d'
                          % (quantity, location, MOST_ON_HAND))


def test_cart(instance):
    """Fails where an order has more units than a cart: an order is never split."""
    for order in instance.orders:
        if instance.units is not None and units_of(order) > instance.units:
            raise Trouble('order %s of instance %s has %d units, and a cart holds %d: an order is never split'
                          % (order.name, instance.name, units_of(order), instance.units))
