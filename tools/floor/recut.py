"""The orders of a day in waves of another size."""

from .pages import walked


def recut(day, size):
    """The desk file of a day whose orders go out in waves of a size: those of the waves that went out and weren't
    cancelled, in the order in which they were submitted. What was received comes first, so that all find their stock.
    """
    names = {wave.name for wave in walked(day)}
    received = [entry.command for entry in day.entries if entry.reply == ['received']]
    orders = [order for entry in day.entries if entry.reply == ['submitted'] and entry.command[1] in names
              for order in entry.command[2:]]
    lines = [['desk', 'command', 'arguments'], *(['1', *command] for command in received)]
    for number, first in enumerate(range(0, len(orders), size), 1):
        lines += [['1', 'submit', 'W%d' % number, *orders[first:first + size]], ['1', 'release', 'W%d' % number]]
    return ''.join(','.join(line) + '\n' for line in lines).encode()
