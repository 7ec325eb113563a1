"""The rows of a benchmark: for each kind of instances and each way to plan them what the runs came to, as cells of a
table and as an object."""

from collections import namedtuple

from .measures import MEASURES, Result, gap, spread_of

# Instances that make one row: what they are called, how many orders they have, and the cart.
Group = namedtuple('Group', 'title orders capacity units instances')
# How they are planned: the budget, whether with --sharp, and the number behind --nodes. One of budget and nodes is None:
# nodes stand in the budget's place.
Way = namedtuple('Way', 'budget sharp nodes')
# A row has what came of each instance in their order: a result, or why there is none.
Row = namedtuple('Row', 'group way ends')

BAD_WORDS = 'refused words bad-words'
UNKNOWN = 'not in this program'
HEADINGS = ('instances', 'orders', 'capacity', 'units', 'budget', '--sharp', '--nodes', 'cost', 'bound', 'gap %',
            'proven', 'nodes', 'seconds')
NUMBERS = HEADINGS[1:5] + HEADINGS[6:]
LEGEND = ('The mean over the instances of a row, the standard deviation behind \u00b1, and the least and the greatest '
          'in parentheses; one number where all are the same. The gap is that between cost and bound, in percent of '
          'the cost. Nodes are those of the certificates with duals of their own: where a plan has a gap and no such '
          'node, its budget paid for none. Seconds are those of a whole run, with one worker.')


def results_of(row):
    return [end for end in row.ends if isinstance(end, Result)]


def is_unknown(row):
    """Whether the program doesn't know what is asked for of it."""
    asks = row.way.sharp or row.way.nodes is not None
    return asks and set(row.ends) == {BAD_WORDS}


def failures(rows):
    """The lines of instances that came to nothing, but for what the program doesn't know."""
    for row in rows:
        for instance, end in zip(row.group.instances, row.ends):
            if not isinstance(end, Result) and not is_unknown(row):
                yield '%s, %s: %s' % (instance.name, told_way(row.way), end)


def told_way(way):
    """A way to plan in words."""
    told = 'budget %s' % grouped(way.budget) if way.nodes is None else '--nodes %d' % way.nodes
    return ', '.join([told, *(['--sharp'] if way.sharp else [])])


def grouped(value, digits=0):
    """A number with its thousands set apart."""
    return '{:,.{}f}'.format(value, digits)


def told_spread(found, digits, least_digits=0, deviates=True):
    """A spread as a text: the mean, the deviation, the least and the greatest. Of equal numbers it is that alone."""
    if found.least == found.greatest:
        return grouped(found.least, least_digits)
    deviation = ' \u00b1{}'.format(grouped(found.deviation, digits)) if deviates else ''
    return '%s%s (%s to %s)' % (grouped(found.mean, digits), deviation, grouped(found.least, least_digits),
                                grouped(found.greatest, least_digits))


def way_cells(row):
    """The cells of the instances and of the way in which they are planned."""
    group, way = row.group, row.way
    return {'instances': group.title, 'orders': grouped(group.orders), 'capacity': str(group.capacity),
            'units': 'none' if group.units is None else grouped(group.units),
            'budget': '-' if way.budget is None else grouped(way.budget),
            '--sharp': 'yes' if way.sharp else 'no', '--nodes': '-' if way.nodes is None else grouped(way.nodes)}


def measured_cells(row):
    """The cells of what the runs came to."""
    results = results_of(row)
    if not results:
        return {'cost': UNKNOWN if is_unknown(row) else row.ends[0]}
    proven = sum(result.proven for result in results)
    return {'cost': told_spread(spread_of(results, 'cost'), 1), 'bound': told_spread(spread_of(results, 'bound'), 1),
            'gap %': told_spread(spread_of(results, 'gap'), 2, 2), 'proven': '%d of %d' % (proven, len(results)),
            'nodes': told_spread(spread_of(results, 'nodes'), 1, deviates=False),
            'seconds': told_spread(spread_of(results, 'seconds'), 2, 2, False)}


def headings_of(rows):
    """The headings of a table: what no run was asked for has no column."""
    left_out = set()
    if not any(row.way.sharp for row in rows):
        left_out.add('--sharp')
    if all(row.way.nodes is None for row in rows):
        left_out.add('--nodes')
    return [heading for heading in HEADINGS if heading not in left_out]


def table_of(rows):
    """The headings, and the cells of each row in their order."""
    headings = headings_of(rows)
    cells = [{**way_cells(row), **measured_cells(row)} for row in rows]
    return headings, [[each.get(heading, '') for heading in headings] for each in cells]


def end_object(instance, end):
    """What came of an instance, as an object."""
    if not isinstance(end, Result):
        return {'instance': instance.name, 'why': end}
    return {'instance': instance.name, 'cost': end.cost, 'bound': end.bound, 'gap': gap(end), 'proven': end.proven,
            'nodes': end.nodes, 'seconds': end.seconds}


def row_object(row):
    """A row as an object."""
    group, way, results = row.group, row.way, results_of(row)
    found = {'instances': group.title, 'orders': group.orders, 'capacity': group.capacity, 'units': group.units,
             'budget': way.budget, 'sharp': way.sharp, 'nodes_asked': way.nodes, 'known': not is_unknown(row),
             'runs': [end_object(*each) for each in zip(group.instances, row.ends)],
             'proven': sum(result.proven for result in results)}
    return {**found, **({name: spread_of(results, name)._asdict() for name in MEASURES} if results else {})}
