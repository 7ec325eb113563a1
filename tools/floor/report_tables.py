"""The tables of a report as a reader sees them, on a terminal or on a page."""

from collections import namedtuple

from .day_figures import RULES
from .shortages import WAITS

# A table of a page or a text. `kind` says how a column's values are told: as text, a name, a count, a length or a
# share. In the heading of a length %s stands for the unit.
Column = namedtuple('Column', 'key heading kind')
Table = namedtuple('Table', 'name title columns rows')
TEXT, NAME, COUNT, LENGTH, SHARE = 'text', 'name', 'count', 'length', 'share'
NO_HOUR = 'none'  # stands for the hour of waves that have no time in their names


def grouped(rows, keys, sums):
    """Rows put together that have the same values of some keys: sums of others, and on how many days."""
    found, days = {}, {}
    for row in rows:
        key = tuple(row[name] for name in keys)
        into = found.setdefault(key, {**row, **dict.fromkeys(sums, 0)})
        for name in sums:
            into[name] += row[name]
        days.setdefault(key, set()).add(row['day'])
    return [{**row, 'days': len(days[key])} for key, row in found.items()]


def of_days(report, keys):
    """The lines of the days with some of their figures; where there are several, their sum and mean too."""
    rows = [*report.days]
    if len(rows) > 1:
        rows += [{**report.sum, 'day': 'sum', 'last': True}, {**report.mean, 'day': 'mean', 'last': True}]
    return [row for row in rows if any(row.get(key) is not None for key in keys)]


def tables_of(report):
    """The tables that a reader sees, one after the other; those without a row aren't there."""
    tables = [*tables_of_days(report), *tables_behind(report)]
    return [table for table in tables if table.rows]


def counts(*keys):
    """Columns of counts whose headings are their keys."""
    return [Column(key, key, COUNT) for key in keys]


def names(*keys):
    return [Column(key, key, NAME) for key in keys]


def tables_of_days(report):
    """The tables with a line for each day."""
    yield Table('days', 'Walk', [
        *names('day'), *counts('waves'), Column('waves_cancelled', 'cancelled', COUNT),
        *counts('carts', 'orders', 'lines', 'units'), Column('walk', 'walk in %s', LENGTH),
        Column('walk_a_line', '%s a line', LENGTH)], of_days(report, ['walk']))
    yield Table('plans', 'Plans, in percent', [
        *names('day'), Column('proven_percent', 'waves proven', SHARE), Column('gap_percent', 'mean gap', SHARE),
        Column('orders_percent', 'carts full by orders', SHARE), Column('units_percent', 'by units', SHARE)],
        of_days(report, ['proven_percent']))
    yield Table('rules', 'How much longer usual rules walk, in percent', [
        *names('day'), *(Column(key + '_percent', name, SHARE) for name, key in RULES.items())],
        of_days(report, [key + '_percent' for key in RULES.values()]))
    yield Table('trouble', 'Trouble', [
        *names('day'), *counts('refused'), Column('short', 'times short', COUNT),
        Column('refilled', 'units refilled', COUNT), Column('lost', 'units lost', COUNT)],
        of_days(report, ['refused']))
    yield Table('crews', 'Loads of the pickers', [
        *names('day'), *counts('pickers'), Column('longest_load', 'longest in %s', LENGTH),
        Column('shortest_load', 'shortest', LENGTH), Column('least_load', 'least', LENGTH)],
        of_days(report, ['pickers']))


def tables_behind(report):
    """The tables of what stands behind the days, all of them together."""
    behind = report.behind
    if len(report.days) == 1:
        runs = names('run') if len(report.crews) > 1 else []
        yield Table('loads', 'Load of each picker', [
            *runs, *counts('picker', 'carts'), Column('load', 'load in %s', LENGTH),
            Column('walked', 'without cancelled waves', LENGTH)], behind['loads'])
    yield Table('hours', 'Walk by hour', [
        *names('hour'), *counts('waves', 'carts', 'lines'), Column('walk', 'walk in %s', LENGTH)],
        by_hour(report))
    yield Table('refused', 'Refused commands', [
        *counts('commands', 'days'), *names('reason', 'article'), Column('first_cause', 'cause of the first', TEXT)],
        by_most(grouped(behind['refused'], ('reason', 'article'), ('commands',)), 'commands'))
    yield Table('short', 'Short articles', [
        *names('article'), Column('lacking', 'units that would have covered it', COUNT), *counts('waves'),
        Column('waits', 'of these wait', COUNT), *counts('days')], by_most(short_articles(report), 'lacking'))
    yield Table('missing', 'Units that were missing', [
        *names('location', 'article'), *counts('times', 'days', 'refilled', 'lost')],
        by_most(grouped(behind['missing'], ('location', 'article'), ('times', 'refilled', 'lost')), 'times'))


def by_most(rows, key):
    """Rows with the greatest values of a key first."""
    return sorted(rows, key=lambda row: -row[key])


def short_articles(report):
    """What was short by article: the units of all waves that were refused for want of it."""
    rows = [{**row, 'waves': 1, 'waits': int(row['became'] == WAITS)} for row in report.behind['short']]
    return grouped(rows, ('article',), ('waves', 'lacking', 'waits'))


def by_hour(report):
    """What went out by hour on all days, the waves without a time last."""
    rows = grouped(report.behind['hours'], ('hour',), ('waves', 'carts', 'lines', 'walk'))
    rows.sort(key=lambda row: 24 if row['hour'] is None else row['hour'])
    return [{**row, 'hour': NO_HOUR if row['hour'] is None else '%02d' % row['hour']} for row in rows]
