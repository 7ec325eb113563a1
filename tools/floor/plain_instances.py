"""Instances as plain text, for other solvers: a line for each fact, and one for each order with its places."""

import re

from opinion.layouts import Layout

from . import instances
from .entries import LOCATION
from .instances import CAPACITIES, LAYOUT_RANGES, UNITS, Instance, Order
from .output import slot_of
from .trouble import Trouble, read_bytes

NUMBER = re.compile('[0-9]{1,18}')
FORMS = {
    'instance': 'instance NAME', 'aisles': 'aisles NUMBER', 'slots': 'slots NUMBER', 'pitch': 'pitch LENGTH',
    'clearance': 'clearance LENGTH', 'spacings': 'spacings LENGTH .., one less than there are aisles',
    'depot': 'depot AISLE front|back', 'capacity': 'capacity NUMBER', 'units': 'units NUMBER|none',
    'orders': 'orders NUMBER', 'order': 'order NAME LOCATION QUANTITY ..', 'end': 'end',
}
NO_UNITS = 'none'  # in the place of the units, where a cart holds any number of them


def text_of(instance):
    """An instance as plain text."""
    layout = instance.layout
    facts = [('instance', instance.name), ('aisles', layout.aisles), ('slots', layout.slots), ('pitch', layout.pitch),
             ('clearance', layout.clearance), ('spacings', *layout.spacings),
             ('depot', layout.depot, 'back' if layout.back else 'front'), ('capacity', instance.capacity),
             ('units', NO_UNITS if instance.units is None else instance.units), ('orders', len(instance.orders))]
    facts += [('order', order.name, *(word for pick in order.picks for word in pick)) for order in instance.orders]
    return ''.join(' '.join(map(str, fact)) + '\n' for fact in [*facts, ('end',)])


class Lines:
    """The lines of a plain file, one after the other, without empty ones and those that begin with #."""

    def __init__(self, path, text):
        rows = [(number, line.split()) for number, line in enumerate(text.split('\n'), 1)]
        self.rows = [row for row in rows if row[1] and not row[1][0].startswith('#')]
        self.path, self.at = path, 0

    def wrong(self, form):
        """What is told of the line that was taken last."""
        number, found = self.rows[self.at - 1]
        return Trouble('line %d of %s is "%s", where "%s" is due' % (number, self.path, ' '.join(found)[:80], form))

    def take(self, word):
        """The words behind the first one of the next line, which has to be a certain one."""
        if self.at == len(self.rows):
            raise Trouble('%s is cut short: "%s" is due at its end' % (self.path, FORMS[word]))
        self.at += 1
        first, *rest = self.rows[self.at - 1][1]
        if first != word:
            raise self.wrong(FORMS[word])
        return rest

    def number(self, text, word, low, high):
        """A number in a range, of the line that was taken last."""
        if not NUMBER.fullmatch(text) or not low <= int(text) <= high:
            raise self.wrong('%s, from %d to %d' % (FORMS[word], low, high))
        return int(text)

    def one(self, word, low, high):
        """The number of the next line."""
        rest = self.take(word)
        if len(rest) != 1:
            raise self.wrong(FORMS[word])
        return self.number(rest[0], word, low, high)


def layout_of(lines):
    """The layout of the next six lines."""
    shape = [lines.one(word, 1, LAYOUT_RANGES[word]) for word in ('aisles', 'slots', 'pitch', 'clearance')]
    spacings = lines.take('spacings')
    if len(spacings) != shape[0] - 1:
        raise lines.wrong(FORMS['spacings'])
    spacings = tuple(lines.number(text, 'spacings', 1, LAYOUT_RANGES['spacings']) for text in spacings)
    depot = lines.take('depot')
    if len(depot) != 2 or depot[1] not in ('front', 'back'):
        raise lines.wrong(FORMS['depot'])
    return Layout(*shape, spacings, lines.number(depot[0], 'depot', 1, shape[0]), depot[1] == 'back')


def units_of(lines):
    """How many units a cart holds, None for any number."""
    rest = lines.take('units')
    if rest == [NO_UNITS]:
        return None
    if len(rest) != 1:
        raise lines.wrong(FORMS['units'])
    return lines.number(rest[0], 'units', *UNITS)


def written(location):
    """A location without leading zeros."""
    return '%d-%d-%s' % (*slot_of(location), location[-1])


def order_of(lines):
    """The order of the next line."""
    name, *rest = lines.take('order') or ['']
    if not rest or len(rest) % 2 or not all(map(LOCATION.fullmatch, rest[::2])):
        raise lines.wrong(FORMS['order'])
    quantities = [lines.number(text, 'order', 1, instances.MOST_QUANTITY) for text in rest[1::2]]
    return Order(name, tuple(zip(map(written, rest[::2]), quantities)))


def instance_of(path, text):
    """The instance that a text says, which is that of a file."""
    lines = Lines(path, text)
    name = lines.take('instance')
    if len(name) != 1:
        raise lines.wrong(FORMS['instance'])
    layout, capacity = layout_of(lines), lines.one('capacity', *CAPACITIES)
    units, count = units_of(lines), lines.one('orders', 1, instances.MOST_ORDERS)
    found = Instance(name[0], layout, capacity, units, tuple(order_of(lines) for _ in range(count)))
    if lines.take('end') or lines.at < len(lines.rows):
        raise Trouble('%s has more lines or words behind its %d orders than "end"' % (path, count))
    instances.test_orders(found)
    return found


def read_instance(path):
    """The instance of a plain file, or of standard input for a dash."""
    return instance_of(path, read_bytes(path).decode('utf-8', 'replace'))
