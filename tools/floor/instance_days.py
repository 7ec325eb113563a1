"""The four files of this program of an instance, as texts, and the words with which it is planned."""

import json

from .instances import wanted, waves_of


def layout_text(layout):
    """A layout file, of version 1 where that can say the layout, as the program writes one."""
    keys = {'aisles': layout.aisles, 'slots': layout.slots, 'pitch': layout.pitch, 'clearance': layout.clearance,
            'depot': layout.depot}
    if len(set(layout.spacings)) == 1 and not layout.back:
        keys.update(version=1, spacing=layout.spacings[0])
    else:
        keys.update(version=2, spacings=list(layout.spacings), end='back' if layout.back else 'front')
    return json.dumps(keys, sort_keys=True, separators=(',', ':')) + '\n'


def article_of(location):
    """The article that lies at a location: each location has its own."""
    return 'A' + location


def stock_lines(instance):
    """What lies at each location: just what all orders want of it."""
    yield 'location,article,on_hand'
    for location, quantity in wanted(instance).items():
        yield '%s,%s,%d' % (location, article_of(location), quantity)


def order_lines(instance):
    yield 'order,article,quantity'
    for order in instance.orders:
        for location, quantity in order.picks:
            yield '%s,%s,%d' % (order.name, article_of(location), quantity)


def desk_lines(instance):
    """One desk submits the waves W1, W2 and so on, and releases each."""
    yield 'desk,command,arguments'
    for number, orders in enumerate(waves_of(instance), 1):
        yield '1,submit,W%d,%s' % (number, ','.join(order.name for order in orders))
        yield '1,release,W%d' % number


def files_of(instance):
    """The texts of the four files, by the names of the files."""
    tables = {'stock.csv': stock_lines, 'orders.csv': order_lines, 'desks.csv': desk_lines}
    found = {name: ''.join(line + '\n' for line in lines(instance)) for name, lines in tables.items()}
    return {'layout.json': layout_text(instance.layout), **found}


def cart_words(instance):
    """The words of a plan that say what a cart takes."""
    units = [] if instance.units is None else ['--units', str(instance.units)]
    return ['--capacity', str(instance.capacity), *units]
