"""The made input: the four files that are drawn from a number, and what is known of the summary of their day."""

from . import tours
from .layouts import Layout

SLOTS, PITCH, CLEARANCE, SPACING = 40, 2, 1, 5
FACTOR, INCREMENT = 6364136223846793005, 1442695040888963407
SMALL = 9  # so few orders of a wave that every batching of them is tried


class Draws:
    """The generator of made days."""

    def __init__(self, number):
        self.state = number

    def below(self, bound):
        self.state = (self.state * FACTOR + INCREMENT) % 2 ** 64
        return (self.state >> 33) % bound


def layout_of(aisles):
    return Layout(aisles, SLOTS, PITCH, CLEARANCE, (SPACING,) * (aisles - 1), (aisles + 1) // 2, False)


def orders_of(number, aisles, orders):
    """The lines of each order: an aisle, a slot and a quantity."""
    draws = Draws(number)
    return [[(1 + draws.below(aisles), 1 + draws.below(SLOTS), 1 + draws.below(5)) for _ in range(1 + draws.below(3))]
            for _ in range(orders)]


def waves_of(orders, wave):
    """The orders by their waves, from 0 on."""
    return [range(start, min(start + wave, orders)) for start in range(0, orders, wave)]


def files(number, aisles, orders, desks, wave, version=1):
    """The four texts of a made day, by the names of their files."""
    shape = {'aisles': aisles, 'clearance': CLEARANCE, 'depot': (aisles + 1) // 2, 'pitch': PITCH, 'slots': SLOTS}
    keys = {**shape, 'spacing': SPACING, 'version': 1}
    if version == 2 and aisles == 1:
        keys = {**shape, 'end': 'front', 'spacings': [], 'version': 2}
    text = ','.join('"%s":%s' % (key, '"%s"' % value if isinstance(value, str) else value)
                    for key, value in sorted(keys.items()))
    stock = ['%d-%d-L,A%d-%d,1000000' % (aisle, slot, aisle, slot) for aisle in range(1, aisles + 1)
             for slot in range(1, SLOTS + 1)]
    lines = ['O%d,A%d-%d,%d' % (order, aisle, slot, quantity)
             for order, some in enumerate(orders_of(number, aisles, orders), 1)
             for aisle, slot, quantity in some]
    commands = []
    for place, some in enumerate(waves_of(orders, wave)):
        desk, name = 1 + place % desks, 'W%d' % (place + 1)
        commands += ['%d,submit,%s,%s' % (desk, name, ','.join('O%d' % (order + 1) for order in some)),
                     '%d,release,%s' % (desk, name)]
    texts = {'stock.csv': ['location,article,on_hand', *stock], 'orders.csv': ['order,article,quantity', *lines],
             'desks.csv': ['desk,command,arguments', *commands]}
    return {'layout.json': '{%s}\n' % text, **{name: '\n'.join(lines) + '\n' for name, lines in texts.items()}}


def cheapest(layout, orders, capacity):
    """What the cheapest batching of a few orders costs, by trying all."""
    lengths, slots = tours.Lengths(layout), [tours.gathered((aisle, slot) for aisle, slot, _ in lines)
                                             for lines in orders]
    union, best = {0: {}}, {0: 0}
    for some in range(1, 1 << len(orders)):
        low = some & -some
        union[some] = tours.joined(union[some ^ low], slots[low.bit_length() - 1])
    length = {some: lengths.shortest(union[some]) for some in union if 0 < bin(some).count('1') <= capacity}
    for some in range(1, 1 << len(orders)):
        low = some & -some
        best[some] = min(length[batch] + best[some ^ batch] for batch in _parts(some) if batch & low
                         and batch in length)
    return best[(1 << len(orders)) - 1]


def _parts(some):
    """The parts of a set but the empty one."""
    part = some
    while part:
        yield part
        part = (part - 1) & some


def faults(size, told, sums):
    """What is wrong with a summary: its two lines of what was made, and its cost, bound and number of proven plans."""
    waves = waves_of(size['orders'], size['wave'])
    orders = orders_of(size['number'], size['aisles'], size['orders'])
    units = sum(quantity for lines in orders for _, _, quantity in lines)
    right = ['made number %(number)d aisles %(aisles)d orders %(orders)d desks %(desks)d' % size,
             'commands %d released %d units %d' % (2 * len(waves), len(waves), units)]
    for printed, due in zip(told, right):
        if printed != due:
            yield '%r where %r is right' % (printed, due)
    cost, bound, proven = sums
    if bound > cost or proven > len(waves) or (proven == len(waves)) != (bound == cost):
        yield 'cost %d, bound %d and %d proven of %d waves do not go together' % (cost, bound, proven, len(waves))
    if size['wave'] <= SMALL and size['orders'] <= 40:
        best = sum(cheapest(layout_of(size['aisles']), [orders[order] for order in wave], size['capacity'])
                   for wave in waves)
        if not bound <= best <= cost:
            yield 'cost %d and bound %d, where a cheapest plan costs %d' % (cost, bound, best)
